# This file is part of acrun.
package Debian::Debhelper::Buildsystem::acrun_port;

use strict;
use warnings;
use Cwd qw(abs_path);
use Debian::Debhelper::Dh_Lib qw(%dh doit error mkdirs print_and_doit restore_file_on_clean sourcepackage warning);
use Digest::SHA qw(sha256_hex);
use File::Basename qw(dirname);
use POSIX qw(W_OK access);
use parent qw(Debian::Debhelper::Buildsystem::acrun);

# For each source directory whose configure.ac was written there is a directory here. It has the path of that file, the text that was written,
# and a copy of the tree's own file, unless there was none. It is whole from the moment on at which it has its name, and that is before the
# file is written. So what is found after a build that was killed says what to do.
my $states = 'debian/.debhelper/acrun-port';

sub DESCRIPTION {
	return 'acrun (configure.ac, ported when the package is built)';
}

sub configure {
	my ($this, @words) = @_;
	$this->_port() if !$dh{NO_ACT};
	return $this->SUPER::configure(@words);
}

# The tree's own file comes back also if the package's own clean fails, and of each source directory, since debian/rules may name another one
# for dh_auto_configure alone.
sub clean {
	my ($this, @words) = @_;
	my $cleaned = eval { $this->SUPER::clean(@words); 1 };
	my $cause = $@;
	if (!$dh{NO_ACT}) {
		_put_back($_) for grep { !/\.new$/ } glob("$states/*");
	}
	die $cause if !$cleaned;
	return;
}

# Writes the configure.ac of the source directory. If port leaves something to do, the tree is as it was, and the build ends.
sub _port {
	my ($this) = @_;
	my $path = $this->get_sourcepath('configure.ac') =~ s{^\./}{}r;
	my $state = "$states/" . sha256_hex($path);
	if (-d $state) {
		_found($state) ne 'other'
			or error("$path has changed since it was ported: debian/rules clean keeps what it is now, and puts the tree's own back");
		_put_back($state);
	}

	doit('rm', '-rf', '--', "$state.new");
	mkdirs("$state.new");
	my $script = abs_path(dirname(__FILE__) . '/../../../../acrun') . '/port';
	print_and_doit($script, '-o', "$state.new/ported", sourcepackage(), _version(), $this->get_sourcedir());
	my $source = _is_there($path) ? $path : $this->get_sourcepath('configure.in');
	if ($source eq $path && _bytes($path) eq _bytes("$state.new/ported")) {
		doit('rm', '-rf', '--', "$state.new");
		return;
	}
	access(dirname($path), W_OK) or error("$path can't be written: $!");
	_write("$state.new/path", $path);
	doit('cp', '-a', '--', $path, "$state.new/own") if $source eq $path;
	rename("$state.new", $state) or error("$state can't be written: $!");
	# dh_clean puts a file back too, for rules that don't call dh_auto_clean. It takes regular files alone, and no path that begins with a dot.
	restore_file_on_clean($path) if $source eq $path && !-l $path && $path !~ /^\.|\n/;

	_write("$state/new", _bytes("$state/ported"));
	chmod((stat($source))[2] & 07777, "$state/new") or error("$state/new: $!");
	doit('touch', '-r', $source, "$state/new");
	rename("$state/new", $path) or error("$path can't be written: $!");
	return;
}

# The version of the package without what a distribution adds to that of the release.
sub _version {
	open(my $handle, '-|', 'dpkg-parsechangelog', '-S', 'Version') or error("dpkg-parsechangelog can't be run: $!");
	my $version = <$handle>;
	close($handle) or error('dpkg-parsechangelog finds no version');
	chomp($version);
	$version =~ s/^[0-9]+://;
	$version =~ s/-[^-]*$//;
	return $version =~ s/[+~](?:dfsg|ds)[0-9.]*$//r;
}

# What is now at the path of a state: the text that was `ported`, the tree's `own` file or none if it had none, `nothing` in place of that, or
# something `other`.
sub _found {
	my ($state) = @_;
	my $path = _bytes("$state/path");
	my $own = "$state/own";
	return _is_there($own) ? 'nothing' : 'own' if !_is_there($path);
	return 'ported' if _is_regular($path) && _bytes($path) eq _bytes("$state/ported");
	return 'own' if _is_regular($path) && _is_regular($own) && _bytes($path) eq _bytes($own);
	return 'own' if -l $path && -l $own && readlink($path) eq readlink($own);
	return 'other';
}

# Puts the tree's own file back, and removes the state. A file that somebody else has changed since it was written is kept.
sub _put_back {
	my ($state) = @_;
	my $path = _bytes("$state/path");
	my $own = "$state/own";
	my $found = _found($state);
	if ($found eq 'other' && !_is_there($own)) {
		warning("$path has changed since it was made, and is left");
	} elsif ($found eq 'other') {
		my $kept = "$path.acrun-changed";
		for (my $number = 1; _is_there($kept); $number++) {
			$kept = "$path.acrun-changed$number";
		}
		rename($path, $kept) or error("$path can't be put back: $!");
		warning("$path has changed since it was ported: what it was is now $kept");
	}
	if ($found ne 'own' && _is_there($own)) {
		doit('cp', '-a', '--remove-destination', '--', $own, "$state/back");
		rename("$state/back", $path) or error("$path can't be put back: $!");
	} elsif ($found eq 'ported') {
		unlink($path) or error("$path can't be removed: $!");
	}
	_forget($path);
	doit('rm', '-rf', '--', $state);
	return;
}

# Takes a path out of the list of what dh_clean puts back, since by then the file may have been changed again.
sub _forget {
	my ($path) = @_;
	my $index = 'debian/.debhelper/bucket/index';
	return if !-f $index;
	_write("$index.new", join('', grep { !/^\S+ \Q$path\E$/ } split(/^/, _bytes($index))));
	rename("$index.new", $index) or error("$index can't be written: $!");
	return;
}

# Whether there is anything at a path, also a link to nothing.
sub _is_there {
	my ($path) = @_;
	return lstat($path) ? 1 : 0;
}

sub _is_regular {
	my ($path) = @_;
	return -f $path && !-l $path;
}

sub _bytes {
	my ($path) = @_;
	open(my $file, '<:raw', $path) or error("$path can't be read: $!");
	my $bytes = do { local $/; <$file> };
	close($file) or error("$path can't be read: $!");
	return $bytes // '';
}

sub _write {
	my ($path, $bytes) = @_;
	open(my $file, '>:raw', $path) or error("$path can't be written: $!");
	print {$file} $bytes or error("$path can't be written: $!");
	close($file) or error("$path can't be written: $!");
	return;
}

1;

__END__

=head1 NAME

Debian::Debhelper::Buildsystem::acrun_port - port a package's configure.ac, and configure it with acrun

=head1 SYNOPSIS

  dh_auto_configure --buildsystem=acrun_port [-- WORD..]

=head1 DESCRIPTION

The build system B<acrun>, for a source whose F<configure.ac>, or F<configure.in>, acrun doesn't support as it is. dh_auto_configure first
runs B<acrun port --idioms> on it. If nothing is left to do, the text becomes F<configure.ac>, with the time of the tree's own, and the log has
the difference. Otherwise the build ends with each line that is left to do, the tree stays as it is, and nothing is configured.

If a command or a macro makes the arguments of AC_INIT, they get the version of the package, without its epoch, its revision, B<+dfsg> and
B<+ds>, and the name of the source package unless they have a name that is plain.

dh_auto_clean puts the tree's own file back, with its time, and removes a F<configure.ac> that was made of F<configure.in>. If the file has
other bytes than those that were written, nothing of it is lost: it becomes F<configure.ac.acrun-changed>, or stays if the tree had none.

=head1 SEE ALSO

L<acrun(1)>, L<dh_auto_configure(1)>, L<debhelper(7)>

=cut
