# A function of the scripts sm_tool, prove, test and install.sh, which read this file. ./dist puts it into the archive's install.sh.

# Whether this processor has the instructions of the level x86-64-v3, AVX2 among them.
has_level_3() {
    flags=$(grep -m 1 '^flags' /proc/cpuinfo 2>/dev/null)
    for flag in avx2 bmi1 bmi2 fma f16c movbe; do
        case " $flags " in
        *" $flag "*) ;;
        *) return 1 ;;
        esac
    done
}
