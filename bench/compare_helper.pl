# Passes operations to the bulk helper of Perl's Search::Elasticsearch: perl compare_helper.pl PORT FILE. Where the helper keeps its
# buffer after an exception, it is flushed again, at most 8 times. Prints as JSON the numbers of the operations that it reports as
# failed: an exception that names none is counted as a report of all that were buffered.
use strict;
use warnings;
use JSON::PP;
use Search::Elasticsearch;

my ($port, $path) = @ARGV;
my $json = JSON::PP->new->canonical;
my (@failed, @buffered);
my $failed = sub { my ($action, $response) = @_; push @failed, int($response->{_type}); };
my $client = Search::Elasticsearch->new(nodes => ["127.0.0.1:$port"], client => '8_0::Direct', max_retries => 3);
my $bulk = $client->bulk_helper(max_count => 0, max_size => 0, on_error => $failed, on_conflict => $failed);

sub flush {
    return unless @buffered;
    for my $try (0 .. 8) {
        last if eval { $bulk->flush; 1 };
        if (!@{ $bulk->_buffer } || $try == 8) {
            push @failed, @buffered;
            $bulk->clear_buffer;
            last;
        }
    }
    @buffered = ();
}

open my $file, '<', $path or die $!;
while (my $line = <$file>) {
    my $metadata = $json->decode($line)->{index};
    my $source = $json->decode(scalar <$file>);
    $bulk->index({ _index => $metadata->{_index}, _id => $metadata->{_id}, source => $source });
    push @buffered, $source->{seq};
    flush() if @buffered == 500;
}
flush();
print $json->encode(\@failed), "\n";
