"""A Debian that is booted for a test: this machine's own files, of which it changes nothing, with a systemd, processes
and a network of its own, on which the package of deploy is installed."""
import functools
import os
import pathlib
import subprocess
import tempfile
import threading
import time

from built_desk import HERE

TOP = HERE.parent
# Its first word is a folder for what changes, its second one the files that it begins with. If it ends and the folder
# has a file `again`, it is booted once more.
BOOT = r"""
mount --make-rprivate /
! mountpoint -q /sys/fs/cgroup || umount -R /sys/fs/cgroup
mkdir $1/top $1/disk
mount -t tmpfs none $1/disk
mkdir $1/disk/upper $1/disk/work
mount -t cgroup2 none /sys/fs/cgroup || exit
for boot in 1 2 3; do
    group=/sys/fs/cgroup/hotel-test-$$-$boot
    mkdir $group || exit
    timeout -s KILL 600 unshare -mpnuiCf --kill-child bash -euc '
        top=$0/top
        mount -t overlay overlay -o lowerdir=$1,upperdir=$0/disk/upper,workdir=$0/disk/work $top
        mount -t proc none $top/proc
        mount -t sysfs none $top/sys
        mount -t cgroup2 none $top/sys/fs/cgroup
        mount -t tmpfs -o mode=755 none $top/run
        mount -t tmpfs -o mode=1777 none $top/tmp
        mount -t tmpfs -o mode=755 none $top/dev
        for device in null zero full random urandom tty; do
            touch $top/dev/$device
            mount --bind /dev/$device $top/dev/$device
        done
        mkdir $top/dev/shm $top/dev/pts
        mount -t devpts -o newinstance,ptmxmode=666,mode=620 none $top/dev/pts
        ln -s pts/ptmx $top/dev/ptmx
        ln -s /proc/self/fd $top/dev/fd
        for at in 0 1 2; do ln -s /proc/self/fd/$at $top/dev/$(cut -d " " -f $((at + 1)) <<<"stdin stdout stderr"); done
        mkdir -p $top/given
        mount --bind $0/given $top/given
        mkdir -p $top/run/systemd/system/timer.d $top/run/systemd/system/service.d
        echo "$NO_TIMERS" >$top/run/systemd/system/timer.d/none.conf
        echo "$FAST" >$top/run/systemd/system/service.d/fast.conf
        [ $2 != 1 ] || rm -rf $top/etc/systemd/system/*.wants $top/etc/nginx/hotel $top/etc/hotel_desk \
            $top/var/lib/hotel*
        systemctl -q --root=$top enable nginx >/dev/null # as its package does
        install -m 755 /dev/stdin $top/usr/sbin/sendmail <<<"$SENDMAIL"
        echo hotel-pc >$top/etc/hostname
        hostname hotel-pc
        ip link set lo up
        ip link add v0 type veth peer name v1
        ip addr add 192.168.1.10/24 dev v0
        ip link set v0 up
        cd $top
        mkdir -p .before
        pivot_root . .before
        umount -l /.before
        exec env -i container=test PATH=/usr/sbin:/usr/bin:/sbin:/bin /lib/systemd/systemd --system \
            --unit=multi-user.target --log-target=journal --show-status=no
    ' "$@" $boot & echo $! >$group/cgroup.procs; echo $! >"$1/pid"
    wait
    find $group -depth -type d -exec rmdir {} +
    rm "$1/again" || break
done
"""
SENDMAIL = """#!/bin/sh
test ! -e /run/no-mailer && tee -a /var/every-mail >>/var/mails && echo ---- >>/var/mails
"""
# No timer fires while a test looks: what it would start is started by the test.
NO_TIMERS = "[Timer]\nOnCalendar=\nOnCalendar=2099-01-01"
AROUND = {"HOME": "/root", "PATH": "/usr/local/sbin:/usr/local/bin:/usr/sbin:/usr/bin:/sbin:/bin", "LC_ALL": "C.UTF-8",
          "DEBIAN_FRONTEND": "noninteractive"}


# How dpkg-deb packs: here, and in a unit.
FAST = {"DPKG_DEB_COMPRESSOR_TYPE": "gzip", "DPKG_DEB_COMPRESSOR_LEVEL": "1"}
UNITS_ARE_FAST = "[Service]\n" + "".join(f"Environment={name}={value}\n" for name, value in FAST.items())
BUILDING = threading.Lock()


def packages(program):
    """Two versions of the package with this program, the later one last."""
    with BUILDING:
        return built(program)


@functools.cache
def built(program):
    """The same, and the folder that has them as long as this runs."""
    made = tempfile.TemporaryDirectory()
    names = [subprocess.run([TOP / "deploy/package", program], cwd=made.name, check=True, text=True,
                            env=dict(os.environ, VERSION=version, **FAST), stdout=subprocess.PIPE).stdout.strip()
             for version in ("1+1", "1+2")]
    return made, [pathlib.Path(made.name, name) for name in names]


def may_boot():
    """Whether a systemd may be started here."""
    may = subprocess.run(["unshare", "-mpnuiCf", "true"], stderr=subprocess.DEVNULL, check=False).returncode == 0
    return may and os.path.exists("/lib/systemd/systemd")


class Computer:
    """A booted Debian, with each package in a folder of its version in /given. It ends with the block that it is the
    manager of."""

    def __init__(self, desk, root=None):
        folder = desk.folder / f"computer-{time.monotonic_ns()}"
        (folder / "given").mkdir(parents=True)
        for package in packages(desk.program)[1]:
            version = folder / "given" / package.name.split("_")[1]
            version.mkdir()
            (version / package.name).write_bytes(package.read_bytes())
        self.folder, self.given = folder, folder / "given"
        around = dict(os.environ, SENDMAIL=SENDMAIL, NO_TIMERS=NO_TIMERS, FAST=UNITS_ARE_FAST)
        self.boot = subprocess.Popen(["unshare", "-m", "bash", "-c", BOOT, "bash", folder, root or os.environ.get(
            "ROOT", "/")], env=around, stderr=subprocess.DEVNULL)
        self.first = self.first_process()
        self.runs()

    def runs(self):
        """Waits until it has booted."""
        self.sh("until systemctl is-system-running | grep -qE 'running|degraded'; do sleep 0.1; done")

    def first_process(self):
        """The systemd, as this machine numbers it."""
        for _ in range(2400):
            time.sleep(0.05)
            if (self.folder / "pid").exists():
                timeout = (self.folder / "pid").read_text().strip()
                words = ["bash", "-c", 'for _ in 1 2; do set -- $(cat /proc/$1/task/$1/children); done; echo $1; '
                         'tr "\\0" " " </proc/$1/cmdline', "bash", timeout]
                said = subprocess.run(words, stdout=subprocess.PIPE, stderr=subprocess.DEVNULL, text=True, check=False)
                if "systemd" in said.stdout and "unshare" not in said.stdout and "bash" not in said.stdout:
                    return said.stdout.split()[0]
        raise AssertionError("no systemd started")

    def loses_power(self):
        """Its processes end at once, and it boots again with what its disk has."""
        (self.folder / "again").touch()
        (self.folder / "pid").unlink()
        subprocess.run(["kill", "-KILL", self.first], check=False)
        self.first = self.first_process()
        self.runs()

    def __enter__(self):
        return self

    def __exit__(self, *_):
        subprocess.run(["kill", "-KILL", self.first], check=False)
        self.boot.wait(60)

    def sh(self, script, given=""):
        """The status and the output of a script."""
        done = subprocess.run(["nsenter", "-t", self.first, *"-m -p -n -u -i -C -r -w".split(), "bash", "-c", script],
                              input=given, text=True, env=AROUND, stdout=subprocess.PIPE,
                              stderr=subprocess.STDOUT, timeout=300, check=False)
        return done.returncode, done.stdout

    def says(self, script, given=""):
        return self.sh(script, given)[1].strip()
