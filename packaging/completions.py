"""Completions of the program's words for bash, zsh and fish, made from its help."""

import re

BASH = """# Completions of dbtg for bash.
_dbtg() {{
    local word=${{COMP_WORDS[COMP_CWORD]}} before=${{COMP_WORDS[COMP_CWORD - 1]}} options values topics
    if [ "$COMP_CWORD" = 1 ]; then
        COMPREPLY=($(compgen -W "{commands} help {options}" -- "$word"))
        return
    fi
    case ${{COMP_WORDS[1]}} in
{cases}
        help) COMPREPLY=($(compgen -W "{commands}" -- "$word")); return ;;
        *) return ;;
    esac
    case " $values " in
        *" $before "*) return ;;
    esac
    case $word in
        -*) COMPREPLY=($(compgen -W "$options" -- "$word")) ;;
        *)
            if [ -n "$topics" ]; then
                COMPREPLY=($(compgen -W "$topics" -- "$word"))
                return
            fi
            compopt -o filenames 2>/dev/null
            mapfile -t COMPREPLY < <(compgen -f -- "$word")
            ;;
    esac
}}
complete -F _dbtg dbtg
"""
BASH_CASE = '        {name}) options="{options}" values="{values}" topics="{topics}" ;;'

ZSH = """#compdef dbtg
# Completions of dbtg for zsh.
local -a commands
commands=(
{commands}
)
if (( CURRENT == 2 )); then
    _describe command commands
    return
fi
case $words[2] in
{cases}
    help) _describe command commands ;;
esac
"""
ZSH_CASE = "    {name}) shift words; (( CURRENT-- )); _arguments {options} '*:{others}' ;;"

FISH = "# Completions of dbtg for fish.\n"
FISH_COMMAND = "complete -c dbtg -n __fish_use_subcommand -a {name} -d {means}\n"
FISH_TOPICS = "complete -c dbtg -n '__fish_seen_subcommand_from {name}' -f -a '{topics}'\n"
FISH_OPTION = "complete -c dbtg -n '__fish_seen_subcommand_from {name}' {flags}{value} -d {means}\n"


def quoted(text):
    """A text as one word of a shell."""
    return "'" + text.replace("'", "'\\''") + "'"


def name_of(command):
    return command.name.partition("-")[2]


def topics(command):
    """The words that a command takes in the place of files: those of its usage in small letters, behind its own name."""
    return " ".join(re.findall(r"(?<![-<\w])[a-z]+(?![-\w>])", command.usage)[1:])


def flags(entries):
    return [flag for it in entries for flag in it.flags()]


def bash(whole, commands):
    cases = [
        BASH_CASE.format(
            name=name_of(it),
            options=" ".join(flags(it.options())),
            values=" ".join(flags(option for option in it.options() if option.value() and option.value() != "FILE")),
            topics=topics(it),
        )
        for it in commands
    ]
    return BASH.format(commands=" ".join(map(name_of, commands)), options=" ".join(flags(whole.options())), cases="\n".join(cases))


def zsh_option(option):
    """An option as _arguments has it: its meaning in brackets, and what stands behind it."""
    means = option.means.replace("[", "(").replace("]", ")").replace(":", "\\:")
    behind = {"": "", "FILE": ":file:_files"}.get(option.value(), f":{option.value()}:")
    return " ".join(quoted(f"{flag}[{means}]{behind}") for flag in option.flags())


def zsh(whole, commands):
    described = "\n".join("    " + quoted(f"{it.words}:{it.means}") for it in whole.commands())
    cases = [
        ZSH_CASE.format(
            name=name_of(it),
            options=" ".join(map(zsh_option, it.options())),
            others=f"topic:({topics(it)})" if topics(it) else "file:_files",
        )
        for it in commands
    ]
    return ZSH.format(commands=described, cases="\n".join(cases))


def fish_option(name, option):
    spelled = " ".join(f"-l {flag[2:]}" if flag.startswith("--") else f"-s {flag[1:]}" for flag in option.flags())
    value = {"": "", "FILE": " -r -F"}.get(option.value(), " -x")
    return FISH_OPTION.format(name=name, flags=spelled, value=value, means=quoted(option.means))


def fish(whole, commands):
    lines = [FISH_COMMAND.format(name=it.words, means=quoted(it.means)) for it in whole.commands()]
    lines += [fish_option(name_of(it), option) for it in commands for option in it.options()]
    lines += [FISH_TOPICS.format(name=name_of(it), topics=topics(it)) for it in commands if topics(it)]
    return FISH + "".join(lines)


def completions(whole, commands):
    """Each shell's file, by its place below PREFIX/share."""
    yield "bash-completion/completions/dbtg", bash(whole, commands)
    yield "zsh/site-functions/_dbtg", zsh(whole, commands)
    yield "fish/vendor_completions.d/dbtg.fish", fish(whole, commands)
