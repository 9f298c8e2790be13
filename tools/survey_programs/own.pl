use threads;
use threads::shared;
my $n :shared = 0;
my @t = map { threads->create(sub { for (1..50) { lock $n; $n++ } }) } 1..4;
$_->join for @t;
print "$n\n";
