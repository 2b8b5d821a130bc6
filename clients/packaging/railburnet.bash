# Completion for bash: subcommands, their options as `--help` has them, directories, and the files
# of the mount.
_railburnet() {
	local word=${COMP_WORDS[COMP_CWORD]} at=1 name= words= mark=
	COMPREPLY=()
	while [ "$at" -lt "$COMP_CWORD" ]; do
		case ${COMP_WORDS[at]} in
		--port | --socket | --host | -C | --root) at=$((at + 1)) ;;
		-*) ;;
		*)
			name=${COMP_WORDS[at]}
			break
			;;
		esac
		at=$((at + 1))
	done
	case ${COMP_WORDS[COMP_CWORD - 1]} in
	-C | --root | --into | --directory | --repository)
		mapfile -t COMPREPLY < <(compgen -d -- "$word")
		return
		;;
	--socket)
		mapfile -t COMPREPLY < <(compgen -f -- "$word")
		return
		;;
	esac
	if [ -z "$name" ] && [[ $word != -* ]]; then
		words=$(railburnet --help 2>/dev/null | sed -n 's/^  \([a-z][a-z-]*\)  .*/\1/p')
		mapfile -t COMPREPLY < <(compgen -W "$words" -- "$word")
	elif [[ $word == -* ]]; then
		# shellcheck disable=SC2086
		words=$(railburnet $name --help 2>/dev/null |
			grep -o -e '\(^\|[ ,]\)--*[a-zA-Z0-9][a-z-]*' | tr -d ' ,' | sort -u)
		mapfile -t COMPREPLY < <(compgen -W "$words" -- "$word")
	else
		case $name in
		up | down | status | feed | objects | git-setup) mapfile -t COMPREPLY < <(compgen -d -- "$word") ;;
		cat | stat | dirty | list | since | follow | watch)
			words=${word//[\*\?\[\{\\]/}
			# A pattern that excludes names files as another does.
			if [[ $name != cat && $name != stat && $words == !* ]]; then
				mark='!'
				words=${words#!}
			fi
			words=${words/#!/\\!}
			mapfile -t COMPREPLY < <(railburnet list --null "$words*" "$words*/**" 2>/dev/null |
				tr '\0' '\n' | sed "s/^/$mark/" | head -n 200)
			;;
		esac
	fi
}
complete -o filenames -F _railburnet railburnet
