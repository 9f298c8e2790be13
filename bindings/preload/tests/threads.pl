# Threads of Perl: a queue and a shared variable.
use strict;
use warnings;
use threads;
use threads::shared;
use Thread::Queue;

my $queue = Thread::Queue->new;
my $sum : shared = 0;
my @threads = map {
    my $number = $_;
    threads->create(sub {
        for my $turn (1 .. 20) {
            $queue->enqueue("$number:$turn");
            lock($sum);
            $sum += $turn;
        }
    });
} 1 .. 3;
$_->join for @threads;
$queue->end;
my @order;
while (defined(my $it = $queue->dequeue)) { push @order, $it }
print "$sum ", join(",", @order), "\n";
