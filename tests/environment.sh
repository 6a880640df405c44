# shellcheck shell=bash
# Sourced by tests/run and CI: takes out of the environment what makes Python, Java, git or the
# linker behave here as it doesn't on a fresh machine.
while read -r variable; do
    case $variable in
        PYTHON* | JAVA_* | _JAVA_* | JDK_* | GIT_* | LD_* | MALLOC_* | GLIBC_*) unset "$variable" ;;
    esac
done < <(compgen -e)
unset variable
