# A build system of debhelper: `dh $@ --buildsystem=hawkottoman` configures, builds, tests and installs with `hawkottoman-meson`.
#
# What follows `dh_auto_configure --` goes to `machine-file` and to `setup`, as -Dname=value. If the package has a file debian/machine.ini,
# that is the machine file, and `machine-file` is not run.
package Debian::Debhelper::Buildsystem::hawkottoman;

use strict;
use warnings;
use File::Spec;
use Debian::Debhelper::Dh_Lib qw(dpkg_architecture_value is_cross_compiling error);
use parent qw(Debian::Debhelper::Buildsystem);

my $COMMAND = 'hawkottoman-meson';
my $OWN_MACHINE = 'debian/machine.ini';

sub DESCRIPTION {
    return 'Hawkottoman (meson.build, built with hawkottoman-meson)';
}

sub check_auto_buildable {
    # It has to be named: a meson.build may need the real Meson.
    return 0;
}

sub new {
    my ($class, @args) = @_;
    my $this = $class->SUPER::new(@args);
    $this->prefer_out_of_source_building(@args);
    return $this;
}

# The build directory has to be below the sources, and `--sourcedirectory` may name a part of the package.
sub DEFAULT_BUILD_DIRECTORY {
    my ($this) = @_;
    my $folder = $this->SUPER::DEFAULT_BUILD_DIRECTORY();
    return $this->get_sourcedir() eq '.' ? $folder : $this->get_sourcepath($folder);
}

# The path of the build directory from the sources.
sub folder {
    my ($this) = @_;
    return $this->get_build_rel2sourcedir();
}

sub configure {
    my ($this, @words) = @_;
    error('cross builds are left out') if is_cross_compiling();
    my $folder = $this->folder();
    $this->mkdir_builddir();
    my $machine = -e $OWN_MACHINE ? File::Spec->abs2rel($OWN_MACHINE, $this->get_sourcedir()) : "$folder/machine.ini";
    my @options = ('-Dprefix=/usr', '-Dsysconfdir=/etc', '-Dlibdir=lib/' . dpkg_architecture_value('DEB_HOST_MULTIARCH'),
        '-Dbuildtype=plain', @words);
    if (!-e $OWN_MACHINE) {
        # A shell writes what the command prints to a file; the arguments stay as they are.
        my @to_file = ('sh', '-c', 'machine=$1; shift; exec "$@" >"$machine"', 'sh', $machine);
        $this->doit_in_sourcedir(@to_file, $COMMAND, 'machine-file', @options);
    }
    $this->doit_in_sourcedir($COMMAND, 'setup', '--native-file', $machine, @options, $folder);
}

sub build {
    my ($this, @words) = @_;
    $this->doit_in_sourcedir($COMMAND, 'compile', '-C', $this->folder(), '-v', $this->jobs(), @words);
}

sub test {
    my ($this, @words) = @_;
    $this->doit_in_sourcedir($COMMAND, 'test', '-C', $this->folder(), '--print-errorlogs', $this->jobs(), @words);
}

sub install {
    my ($this, $destdir, @words) = @_;
    $this->doit_in_sourcedir($COMMAND, 'install', '-C', $this->folder(), '--destdir', $destdir, @words);
}

sub clean {
    my ($this) = @_;
    $this->rmdir_builddir();
}

# The argument that says how many commands run at once.
sub jobs {
    my ($this) = @_;
    my $jobs = $this->get_parallel();
    return $jobs > 0 ? "-j$jobs" : ();
}

1;
