# For the scripts that take options: they set `options`, which names for each letter the variable that its value goes to, and
# these variables to what they are without it; and perhaps `flags`, letters that take no value: the variable flag_LETTER is 1
# where one was given. The words that are left are the script's own.
while getopts "${flags:-}$(printf '%s:' "${!options[@]}")" option; do
    [ "$option" != "?" ] || exit 2
    declare "${options[$option]:-flag_$option}=${OPTARG-1}"
done
shift $((OPTIND - 1))
