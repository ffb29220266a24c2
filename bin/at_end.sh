# For the scripts of bin/.
# shellcheck shell=sh

# at_end COMMAND: runs a command when the script ends. A signal ends it too, and then dash does not run the trap of EXIT.
at_end() {
    # shellcheck disable=SC2064
    trap "$1" EXIT
    trap 'exit 129' HUP
    trap 'exit 130' INT
    trap 'exit 141' PIPE
    trap 'exit 143' TERM
}
