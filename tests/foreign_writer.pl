# A third-party client of `relay serve`: Perl's Search::Elasticsearch and its bulk helper, as a service uses them. It reads what to
# write as JSON from standard input, and prints what it believes of each operation, one JSON text per line: whether it was written,
# its action and its item. Nothing of the client is skipped: it asks first whether the server is Elasticsearch.
use strict;
use warnings;
use JSON::PP;
use Search::Elasticsearch;

my $json = JSON::PP->new->utf8->canonical;
my $wanted = $json->decode(do { local $/; <STDIN> });
my $client = Search::Elasticsearch->new(
    nodes => ["127.0.0.1:$wanted->{port}"], client => '8_0::Direct', max_retries => 0, request_timeout => 120);

sub believe {
    my ($good, $kind, $item) = @_;
    print $json->encode([$good ? JSON::PP::true : JSON::PP::false, { $kind => $item }]), "\n";
}

sub document_of {
    my ($action) = @_;
    return map { substr($_, 1) => $action->{$_} } grep { defined $action->{$_} } qw(_index _id);
}

sub one_by_one {
    for my $action (@{ $wanted->{actions} }) {
        my $kind = $action->{_op_type} // 'index';
        my $item = eval {
            $kind eq 'delete' ? $client->delete(document_of($action)) : $client->index(document_of($action), body => $action->{_source});
        };
        if ($item) {
            believe(!exists $item->{error}, $kind, $item);
            next;
        }
        my $error = $@;
        die $error unless ref $error && $error->{vars}{body};
        believe(0, $kind, { _id => $action->{_id}, status => $error->{vars}{status_code}, error => $error->{vars}{body}{error} });
    }
}

# One call of the bulk API for each `count` actions.
sub whole {
    my @actions = @{ $wanted->{actions} };
    while (my @batch = splice @actions, 0, $wanted->{count}) {
        my @lines;
        for my $action (@batch) {
            my $kind = $action->{_op_type} // 'index';
            my %document = document_of($action);
            push @lines, { $kind => { map { ("_$_" => $document{$_}) } keys %document } };
            push @lines, $action->{_source} if $kind ne 'delete';
        }
        for my $answer (@{ $client->bulk(body => \@lines)->{items} }) {
            my ($kind) = keys %$answer;
            believe(!exists $answer->{$kind}{error}, $kind, $answer->{$kind});
        }
    }
}

sub helper {
    my $bulk = $client->bulk_helper(
        max_count  => $wanted->{count},
        on_success => sub { my ($kind, $item) = @_; believe(1, $kind, $item) },
        on_error   => sub { my ($kind, $item) = @_; believe(0, $kind, $item) });
    for my $action (@{ $wanted->{actions} }) {
        my $kind = $action->{_op_type} // 'index';
        my %document = document_of($action);
        my %row = map { ("_$_" => $document{$_}) } keys %document;
        $kind eq 'delete' ? $bulk->delete(\%row) : $bulk->index({ %row, source => $action->{_source} });
    }
    $bulk->flush;
}

my %ways = (one_by_one => \&one_by_one, whole => \&whole, helper => \&helper);
$ways{ $wanted->{way} }->();
