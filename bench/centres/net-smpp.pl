#!/usr/bin/perl
# A message centre of Debian's Net::SMPP (libnet-smpp-perl) and Perl's own Encode, for bench/interop. Each PDU that it got is
# a line of JSON on standard output, as Net::SMPP decoded it, with the text as Encode reads it.
# usage: net-smpp.pl PORT PASSWORD [throttle]
#
# A bind with another password is refused (14). With `throttle` each submit_sm that isn't the one refused before is refused
# first with ESME_RTHROTTLED (88). Behind each third submit_sm it asks enquire_link; where a receipt is asked for, it sends one.
use strict;
use warnings;
use Encode qw(decode);
use JSON::PP;
use Net::SMPP;

my ($port, $password, $throttle) = @ARGV;
my $json = JSON::PP->new->canonical->ascii;
my ($line, $submits, %refused) = (0, 0);

# note PDU: writes it as one line, its strings that may have any octets as hexadecimal digits
sub note {
    my ($pdu, %more) = @_;
    my %fields = (%$pdu, %more, line => $line, name => Net::SMPP::pdu_tab->{ $pdu->{cmd} }{cmd});
    delete $fields{data};
    $fields{short_message} = unpack 'H*', $fields{short_message} if defined $fields{short_message};
    syswrite STDOUT, $json->encode(\%fields) . "\n";
}

# text_of PDU: the text of a submit_sm, and the user data header before it (3GPP TS 23.040 9.2.3.24)
sub text_of {
    my ($pdu) = @_;
    my ($octets, $header) = ($pdu->{short_message}, '');
    if ($pdu->{esm_class} & 0x40) {
        my $length = 1 + ord $octets;
        ($header, $octets) = (substr($octets, 0, $length), substr $octets, $length);
    }
    my $coding = $pdu->{data_coding} == 8 ? 'UTF-16BE' : 'gsm0338';
    return (header => unpack('H*', $header), text => decode($coding, $octets, Encode::FB_CROAK));
}

sub answer_bind {
    my ($centre, $pdu, $name) = @_;
    my $status = $pdu->{password} eq $password ? 0 : 14;
    note($pdu, answered => $status);
    $centre->set_version(0x34);
    my $respond = $name . '_resp';
    $centre->$respond(seq => $pdu->{seq}, status => $status, system_id => 'netsmpp');
    exit if $status;
}

# answer_submit CENTRE PDU: answers it, and sends what it asks for
sub answer_submit {
    my ($centre, $pdu) = @_;
    my $key = join '/', @$pdu{qw(destination_addr short_message)};
    my $status = $throttle && !$refused{$key}++ ? 88 : 0;
    my $id = $status ? '' : "$line-" . ++$submits;
    note($pdu, text_of($pdu), answered => $status, message_id => $id);
    $centre->submit_sm_resp(seq => $pdu->{seq}, status => $status, message_id => $id);
    return if $status;
    $centre->enquire_link(async => 1) if $submits % 3 == 0;
    send_receipt($centre, $pdu, $id) if $pdu->{registered_delivery} & 1;
}

# send_receipt CENTRE PDU ID: a delivery receipt in the form of SMPP 3.4 appendix B
sub send_receipt {
    my ($centre, $pdu, $id) = @_;
    $centre->deliver_sm(
        async => 1, esm_class => 4, source_addr_ton => 1, source_addr_npi => 1, source_addr => $pdu->{destination_addr},
        destination_addr => $pdu->{source_addr},
        short_message => "id:$id sub:001 dlvrd:001 submit date:2601010000 done date:2601010000 stat:DELIVRD err:000 text:",
    );
}

# serve CENTRE: one connection, until it is unbound or lost
sub serve {
    my ($centre) = @_;
    while (my $pdu = $centre->read_pdu()) {
        my $name = Net::SMPP::pdu_tab->{ $pdu->{cmd} }{cmd} // '';
        if ($name =~ /^bind_trans(mitter|ceiver)$/) { answer_bind($centre, $pdu, $name) }
        elsif ($name eq 'submit_sm') { answer_submit($centre, $pdu) }
        elsif ($name eq 'enquire_link') { note($pdu); $centre->enquire_link_resp(seq => $pdu->{seq}) }
        elsif ($name eq 'unbind') { note($pdu); $centre->unbind_resp(seq => $pdu->{seq}); return }
        else { note($pdu) }
    }
}

my $listener = Net::SMPP->new_listen('127.0.0.1', port => $port, smpp_version => 0x34, enquire_interval => 0) or die "port $port: $!";
$SIG{CHLD} = 'IGNORE';
while (1) {
    my $centre = $listener->accept or next;
    $line++;
    next if fork;
    close $listener;
    serve($centre);
    exit;
}
