# Completion of sonata for bash: source this file, or install it as sonata in bash-completion's folder of completions.

# How many file words a command takes, the endings of their names, and the options after them. An ending is a usual one: folders are offered too, a file
# whose whole name it is, and all files where none has it.
declare -gA _sonata_endings=([plain]='query pcap' [plan]='switch query pcap' [run]='switch query plan pcap' [emit]='switch query plan pcap'
    [finish]='query plan reports' [detect]='query plan pcap' [many]='switch query plan pcap pcap pcap pcap pcap pcap pcap pcap'
    [check]='switch query pcap plan' [live]='switch query pcap pcap' [replan]='switch query pcap pcap')
declare -gA _sonata_files=([plain]=2 [plan]=3 [run]=4 [emit]=4 [finish]=3 [detect]=3 [many]=11 [check]=4 [live]=4 [replan]=4 [gen]=0 [job]=0)
declare -gA _sonata_options=([plan]='--nodes --prices' [run]='--csv' [live]='--nodes --schedule --trace' [replan]='--nodes')

_sonata_named() {
    local word=$1 ending=$2 name
    local -a folders=() files=()
    while IFS= read -r name; do
        if [[ -d $name ]]; then folders+=("$name"); elif [[ $name == *.$ending || ${name##*/} == "$ending" ]]; then files+=("$name"); fi
    done < <(compgen -f -- "$word")
    if ((${#files[@]})); then printf '%s\n' "${files[@]}" "${folders[@]}"; else compgen -f -- "$word"; fi
}

_sonata() {
    local -a endings
    local word=${COMP_WORDS[COMP_CWORD]} command=${COMP_WORDS[1]} option
    COMPREPLY=()
    if ((COMP_CWORD == 1)); then
        mapfile -t COMPREPLY < <(compgen -W "${!_sonata_files[*]}" -- "$word")
    elif ((COMP_CWORD <= 1 + ${_sonata_files[$command]:-0})); then
        compopt -o filenames 2> /dev/null
        read -ra endings <<< "${_sonata_endings[$command]}"
        mapfile -t COMPREPLY < <(_sonata_named "$word" "${endings[COMP_CWORD - 2]}")
    elif [[ ${COMP_WORDS[COMP_CWORD - 1]} != @(--nodes|--schedule) ]]; then
        for option in ${_sonata_options[$command]}; do
            [[ " ${COMP_WORDS[*]:2:COMP_CWORD-2} " == *" $option "* ]] || mapfile -t -O "${#COMPREPLY[@]}" COMPREPLY < <(compgen -W "$option" -- "$word")
        done
    fi
}

complete -F _sonata sonata
