print(open('/proc/self/stat').read().split()[1], open('/proc/loadavg').read())
