# Prints the level of the processor that a file such as /proc/cpuinfo describes: x86-64-v3 if it has each flag of this level.
level_of() {
    has=" $(sed -n 's/^flags[[:space:]]*://p' "$1" 2> /dev/null | head -n 1) "
    for flag in @FLAGS@; do
        case $has in
            *" $flag "*) ;;
            *)
                echo x86-64-v2
                return
                ;;
        esac
    done
    echo x86-64-v3
}
