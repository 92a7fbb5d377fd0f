# This file is part of acrun.
use strict;
use warnings;
use Debian::Debhelper::Dh_Lib;

# There is no script of Autoconf to be made anew.
remove_command('dh_autoreconf');
remove_command('dh_autoreconf_clean');

# If the add-on acrun-port is there too, its build system is the one, whichever comes first.
if (!$INC{'Debian/Debhelper/Sequence/acrun_port.pm'}) {
	for my $command (qw(dh_auto_configure dh_auto_build dh_auto_test dh_auto_install dh_auto_clean)) {
		add_command_options($command, '--buildsystem=acrun');
	}
}

1;

__END__

=head1 NAME

Debian::Debhelper::Sequence::acrun - build a package with acrun by dh

=head1 SYNOPSIS

  Build-Depends: debhelper-compat (= 13), dh-sequence-acrun

  %:
          dh $@ --with acrun

=head1 DESCRIPTION

One of the two lines above is enough. The add-on leaves out dh_autoreconf, and gives B<--buildsystem=acrun> to the commands that configure,
build, test, install and clean. dh gives that option to no command of an override: write it there, as in
C<dh_auto_configure --buildsystem=acrun -- --enable-nls>.

=head1 SEE ALSO

L<acrun(1)>, L<dh(1)>

=cut
