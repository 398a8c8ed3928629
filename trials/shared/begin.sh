# What a trial begins with; the scripts of trials/ read it, and are called with the program as their first
# argument. It finds the program and leaves the other arguments, makes a temporary folder that is removed at
# the end, and lets Python find the packages of trials/ without leaving anything beside them. What a trial
# needs beyond the kit is said by functions below.
here=$(cd "$(dirname "$0")" && pwd)
. "$here/../examples/shared/program.sh"
[ $# -eq 0 ] || shift

# Makes sure that a program is there that no trial can do without: its name, and its packages in Debian and in
# Alpine.
must_have() {
    command -v "$1" > /dev/null && return
    echo "$1 is missing: 'apt-get install $2' or 'apk add $3' does it"
    echo "0 passed, 1 failed"
    exit 1
}

must_have python3 python3 python3
folder=$(mktemp -d)
trap 'rm -rf "$folder"' EXIT
trap 'exit 1' HUP INT TERM
cd "$folder" || exit 1
PYTHONDONTWRITEBYTECODE=1
PYTHONPATH=$here
TMPDIR=$folder
export PYTHONDONTWRITEBYTECODE PYTHONPATH TMPDIR

# Whether a command is there, or could be installed from a package of Debian's. Of trials that run side by
# side one installs at a time; what they lock is a folder that they share.
need() {
    command -v "$1" > /dev/null && return 0
    [ "$(id -u)" = 0 ] || return 1
    export RUNLEVEL=1
    timeout 600 flock /var/lib/apt/lists sh -c "timeout 120 apt-get update &&
        timeout 240 apt-get install -y --no-install-recommends $2" > "$folder/apt.log" 2>&1 || return 1
    command -v "$1" > /dev/null
}

# Ends a trial that can't be made here.
leave_out() {
    echo "$1 isn't there and can't be installed: this trial is left out"
    echo "0 passed, 0 failed"
    exit 0
}

# Leaves a trial out where a command isn't there and can't be installed from its package.
wants() {
    need "$1" "${2:-$1}" || leave_out "$1"
}

# Leaves a trial out that isn't root's, who does what is said.
wants_root() {
    [ "$(id -u)" = 0 ] || leave_out "root, $1,"
}

# Leaves a trial out where no machine can be made and booted.
wants_machine() {
    wants_root "who boots a machine"
    wants debootstrap
    wants systemd-nspawn systemd-container
}

# Says which Python knows some modules.
python_with() {
    for one in python3 /usr/bin/python3; do
        "$one" -c "import $1" 2> /dev/null && echo "$one" && return 0
    done
    return 1
}
