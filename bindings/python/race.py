"""Two threads deposit into one account: a race that is explored, recorded and replayed."""
import os

import detio


def deposit(io):
    io.work(20 * io.number)  # the second comes later, unless a schedule has it otherwise
    amounts = io.host_open('amount.txt')  # a file of the host
    amount = int(io.read(amounts))
    io.close(amounts)
    account = io.open('/account', 'r+', create=True)  # a file of the run, in memory
    balance = int(io.pread(account, 20, 0) or b'0')
    io.pwrite(account, str(balance + amount).encode(), 0)
    return balance + amount


run = detio.Run(deposit, deposit)
with open('amount.txt', 'w') as file:
    file.write('5')
print('recorded:', run.record('day.log', force=True).check().values)
lost = next(it for it in run.explore(range(1, 101)) if max(it.check().values) < 10)
print('lost a deposit:', lost.values, 'with seed', lost.seed)
kept = lost.save()  # seed-1.log, in this folder
os.remove('amount.txt')
print('replayed:', run.replay('day.log').check().values)
print('replayed:', run.replay(kept).check().values)
