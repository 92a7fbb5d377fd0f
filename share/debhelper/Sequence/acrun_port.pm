# This file is part of acrun.
use strict;
use warnings;
use Debian::Debhelper::Dh_Lib;

# There is no script of Autoconf to be made anew.
remove_command('dh_autoreconf');
remove_command('dh_autoreconf_clean');

for my $command (qw(dh_auto_configure dh_auto_build dh_auto_test dh_auto_install dh_auto_clean)) {
	add_command_options($command, '--buildsystem=acrun_port');
}

1;

__END__

=head1 NAME

Debian::Debhelper::Sequence::acrun_port - port a package's configure.ac when it is built by dh, and build it with acrun

=head1 SYNOPSIS

  Build-Depends: debhelper-compat (= 13), dh-sequence-acrun-port

  %:
          dh $@ --with acrun-port

=head1 DESCRIPTION

One of the two lines above is enough, and takes the place of the add-on B<acrun>. The add-on leaves out dh_autoreconf, and gives
B<--buildsystem=acrun_port> to the commands that configure, build, test, install and clean. dh gives that option to no command of an override:
write it there, as in C<dh_auto_configure --buildsystem=acrun_port -- --enable-nls>.

=head1 SEE ALSO

L<acrun(1)>, L<dh(1)>

=cut
