# Read by scripts: prints the comment at the head of a script that is called with --help, and ends it.
case "${1-}" in -h | --help)
  sed -n '2,/^[^#]/ s/^# \{0,1\}//p' "$0"
  exit
  ;;
esac
