# This file is part of acrun.
package Debian::Debhelper::Buildsystem::acrun;

use strict;
use warnings;
use Cwd qw(abs_path);
use Debian::Debhelper::Buildsystem::autoconf;
use Debian::Debhelper::Dh_Lib qw(doit error);
use File::Basename qw(dirname);
use parent qw(Debian::Debhelper::Buildsystem::makefile);

sub DESCRIPTION {
	return 'acrun (configure.ac without a script)';
}

sub check_auto_buildable {
	my ($this, $step) = @_;
	return 0 if !-f $this->get_sourcepath('configure.ac') || -e $this->get_sourcepath('configure');
	return $step eq 'configure' ? 1 : $this->SUPER::check_auto_buildable($step);
}

# The options of a configure script are those of debhelper's autoconf build system. It asks here where its script is: that is the one that
# acrun installs beside this directory, in share/acrun.
sub get_source_rel2builddir {
	my ($this, @path) = @_;
	return abs_path(dirname(__FILE__) . '/../../../../acrun') . '/configure' if "@path" eq 'configure';
	return $this->SUPER::get_source_rel2builddir(@path);
}

sub configure {
	my ($this, @words) = @_;
	local $ENV{ACRUN_WHY} = $ENV{ACRUN_WHY} // 1;
	local $ENV{ACRUN_JOBS} = $ENV{ACRUN_JOBS} // $this->get_parallel();
	return Debian::Debhelper::Buildsystem::autoconf::configure($this, '--srcdir=' . $this->get_source_rel2builddir(), @words);
}

# A run that completed has left its record. dh gives the option that chooses a build system to no command of an override.
sub build {
	my ($this, @words) = @_;
	-e $this->get_buildpath('config.status')
		or error('acrun has not configured it: if debian/rules calls dh_auto_configure itself, give it --buildsystem=' . $this->NAME);
	return $this->SUPER::build(@words);
}

sub clean {
	my ($this, @words) = @_;
	my @outputs = grep { !m{(?:^|/)\.{0,2}(?:/|$)} } $this->_outputs();
	$this->SUPER::clean(@words);
	my %directories = map { dirname($_) => 1 } 'config.log', @outputs;
	my @left = ('config.log', 'config.status', 'config.cache', 'config.answers', @outputs, map { $this->_left_in($_) } keys %directories);
	my @there = grep { (-f $_ || -l $_) } map { $this->get_buildpath($_) } sort @left;
	doit('rm', '-f', '--', @there) if @there;
	return;
}

# The files and headers that the record of a run names, if there is one.
sub _outputs {
	my ($this) = @_;
	open(my $record, '<', $this->get_buildpath('config.status')) or return;
	my @lines = <$record>;
	close($record);
	return if !@lines || $lines[0] !~ /^acrun-record /;
	return map { /^(?:file|header) (\S+) / ? $1 =~ s/\\\\/\\/gr : () } @lines;
}

# What a run that was ended may leave in a directory of an output: new files, and in its own directory conftests and what was made of them.
sub _left_in {
	my ($this, $directory) = @_;
	opendir(my $handle, $this->get_buildpath($directory)) or return;
	my @names = grep { /^acrun-[0-9]+\.tmp$/ || ($directory eq '.' && /^conftest(?:[1-9][0-9]*)?(?:\.[co])?$/) } readdir($handle);
	closedir($handle);
	return map { $directory eq '.' ? $_ : "$directory/$_" } @names;
}

1;

__END__

=head1 NAME

Debian::Debhelper::Buildsystem::acrun - configure a package with acrun

=head1 SYNOPSIS

  dh_auto_configure --buildsystem=acrun [-- WORD..]

=head1 DESCRIPTION

The build system of debhelper for a source that has a F<configure.ac> and no script that was made of it. It configures by the script that
acrun installs as F<share/acrun/configure>, with the options that dh_auto_configure gives to a script of Autoconf. It builds, tests and
installs as the makefile build system, in the source or in a directory of its own. If acrun fails, it says the cause, and F<config.log> is
printed.

ACRUN_WHY is 1 unless it is set. ACRUN_JOBS is what B<parallel=N> in DEB_BUILD_OPTIONS and B<--max-parallel> allow, unless it is set.

dh_auto_clean removes the files and headers that the record of the run names, the record, the log, the cache, and what a run that was ended
leaves: F<config.answers>, F<acrun-N.tmp> and conftests.

=head1 SEE ALSO

L<acrun(1)>, L<dh_auto_configure(1)>, L<debhelper(7)>

=cut
