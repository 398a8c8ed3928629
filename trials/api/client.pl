# The client that OpenAPI::Client makes of a description: perl client.pl DESCRIPTION
# The first line of its output has the description's faults. Then a line of its input is a request: the
# operation, its parameters, the front's address, and the caller whose certificate it has, if it has one. A
# line of output has the status of the answer, its body, and what of it isn't as described.
use strict;
use warnings;
use JSON::Validator;
use Mojo::JSON qw(decode_json encode_json);
use OpenAPI::Client;

my $description = shift;
my %clients;

# The client of a caller at a front.
sub client {
    my ($url, $caller) = @_;
    return $clients{"$caller $url"} //= do {
        my $client = OpenAPI::Client->new($description, base_url => $url);
        $client->ua->ca('callers.pem');
        $client->ua->cert("$caller.pem")->key("$caller.key") if $caller;
        $client;
    };
}

# What of an answer isn't as the description says of an operation.
sub faults {
    my ($schema, $operation, $answer) = @_;
    my $route = $schema->routes->first(sub { $_->{operation_id} eq $operation });
    my @response = ($route->{method}, $route->{path}, $answer->code);
    return ('it has no description') unless $schema->parameters_for_response(\@response);
    my $body = sub { {content_type => $answer->headers->content_type, exists => 1, value => $answer->json} };
    return map {"$_"} $schema->validate_response(\@response, {body => $body});
}

# The answer to a request, as a line.
sub answered {
    my ($asked) = @_;
    my $client = client($asked->{url}, $asked->{caller});
    my $sent = $client->call($asked->{operation} => $asked->{parameters});
    my $answer = $sent->res;
    return {status => 0, faults => [$sent->error->{message}]} unless $answer->code;
    my @faults = faults($client->validator, $asked->{operation}, $answer);
    return {status => $answer->code + 0, body => $answer->json, faults => \@faults};
}

$| = 1;
my $errors = JSON::Validator->new->schema($description)->schema->errors;
print encode_json([map {"$_"} @$errors]), "\n";
while (my $line = <STDIN>) {
    print encode_json(answered(decode_json($line))), "\n";
}
