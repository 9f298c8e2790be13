q = Queue.new
t = 4.times.map { |i| Thread.new { 20.times { |k| q << k * i } } }
t.each(&:join)
s = 0
s += q.pop until q.empty?
puts s
