# Sourced by host/build, host/run and host/bench/count.
#   need COMMAND PACKAGE..   installs Debian's packages if the command is not there
need() {
	command -v "$1" >/dev/null && return
	shift
	echo "installing $*" >&2
	{ apt-get install -y -q "$@" || { apt-get update -q && apt-get install -y -q "$@"; }; } >&2
}
