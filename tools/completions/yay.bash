# Completion of the command yay for bash.
_yay() {
    local word=${COMP_WORDS[COMP_CWORD]} last=${COMP_WORDS[COMP_CWORD - 1]} words
    [ "$word" = '=' ] && word=''
    [ "$last" = '=' ] && last=${COMP_WORDS[COMP_CWORD - 2]}
    case $COMP_CWORD,${COMP_WORDS[1]},$last,$word in
        1,*) words='check show rows get json write fmt decide overlay store load compare batch help --help --version' ;;
        *,help,*) words='check show rows get json write fmt decide overlay store load compare batch' ;;
        *,json,--numbers,* | *,get,--numbers,*) words='json text exact' ;;
        *,check,*,-*) words='-q --quiet --stored -h --help' ;;
        *,show,*,-*) words='-p --places --stored -h --help' ;;
        *,rows,*,-*) words='--stored -h --help' ;;
        *,get,*,-*) words='-r --raw -j --json -c --compact --numbers= -d --default= --stored -h --help' ;;
        *,json,*,-*) words='-c --compact --numbers= --stored -h --help' ;;
        *,write,*,-* | *,overlay,*,-*) words='-o --output= --stored -h --help' ;;
        *,fmt,*,-*) words='-o --output= --check -h --help' ;;
        *,decide,*,-*) words='--installed= --stored -h --help' ;;
        *,store,*,-*) words='-o --output= -h --help' ;;
        *,load,*,-*) words='-p --places -h --help' ;;
        *,-*) words='-h --help' ;;
        *) words='' ;;
    esac
    COMPREPLY=()
    # What is left empty bash fills with names of files.
    [ -z "$words" ] || mapfile -t COMPREPLY < <(compgen -W "$words" -- "$word")
    [[ ${COMPREPLY[0]-} != *= ]] || compopt -o nospace 2> /dev/null
}
complete -o default -F _yay yay
