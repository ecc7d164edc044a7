# For the scripts. need COMMAND [PACKAGE]: installs the package of Debian where the command does not work.
# shellcheck shell=sh
need() {
    "$1" --version >/dev/null 2>&1 || {
        apt-get update -qq
        apt-get install -y -qq "${2:-$1}" >/dev/null
    }
}
