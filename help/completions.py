"""Completions for bash, zsh and fish, each made of a program's words (programs.py)."""
from programs import Option, Program

# What is offered for a resource that isn't known here.
RESOURCES = ("secrets", "configmaps")


def function_of(program: Program) -> str:
    return "_" + program.name.replace("-", "_")


def values_of(option: Option) -> tuple[str, ...]:
    """The words that an option's value may be, where they are known."""
    return option.choices or (RESOURCES if option.value == "RESOURCE" else ())


def all_options(program: Program) -> list[Option]:
    """The options of a program and of its commands, each name once."""
    found = {option.name: option for part in (program, *program.commands) for option in part.options}
    return [found[name] for name in sorted(found)]


def names_of(options) -> str:
    return " ".join(option.name for option in options)


# ---- bash

OFFER = "mapfile -t COMPREPLY < <(compgen -W '{}' -- \"$word\")"


def bash_values(program: Program) -> list[str]:
    """The cases of what stands behind an option that takes a value."""
    options = [option for option in all_options(program) if option.value]
    files = "|".join(option.name for option in options if option.takes_file)
    lines = [f"    {files})", '      mapfile -t COMPREPLY < <(compgen -f -- "$word")', "      return", "      ;;"] if files else []
    for option in options:
        if values_of(option):
            lines += [f"    {option.name})", "      " + OFFER.format(" ".join(values_of(option))), "      return", "      ;;"]
    rest = "|".join(option.name for option in options if not option.takes_file and not values_of(option))
    return lines + ([f"    {rest}) return ;;"] if rest else [])


def bash_commands(program: Program) -> list[str]:
    """What is offered as the first word, and behind a command that has names in place of options."""
    first = " ".join([command.name for command in program.commands] + [option.name for option in program.options])
    lines = ['  if [ "$COMP_CWORD" = 1 ]; then', "    " + OFFER.format(first), "    return", "  fi"]
    for command in program.commands:
        if command.names:
            lines += [f'  if [ "${{COMP_WORDS[1]}}" = {command.name} ]; then', "    " + OFFER.format(" ".join(command.names))]
            lines += ["    return", "  fi"]
    return lines


def bash_options(program: Program) -> list[str]:
    """The options that may stand here."""
    if not program.commands:
        return [f"  options='{names_of(program.options)}'"]
    cases = [f"    {command.name}) options='{names_of(command.options)}'{' files=1' if command.arguments else ''} ;;" for command in program.commands if command.options]
    return ["  case ${COMP_WORDS[1]} in", *cases, "  esac"]


def bash(program: Program) -> str:
    """Where a program is called by another path, from a checkout, it is completed too."""
    name, function = program.name, function_of(program)
    lines = [f"# Bash completion of {name}, made by help/write.", f"{function}() {{"]
    lines += ["  local word=${COMP_WORDS[COMP_CWORD]} before=${COMP_WORDS[COMP_CWORD - 1]} options= files=" + ("1" if program.arguments else "")]
    lines += bash_commands(program) if program.commands else []
    lines += ["  case $before in", *bash_values(program), "  esac", *bash_options(program)]
    if program.arguments or any(command.arguments for command in program.commands):
        lines += ['  if [[ $files && $word != -* ]]; then', '    mapfile -t COMPREPLY < <(compgen -f -- "$word")', "    return", "  fi"]
    lines += ['  mapfile -t COMPREPLY < <(compgen -W "$options" -- "$word")', "}"]
    return "\n".join([*lines, f"complete -o filenames -F {function} {name} ./{name}"]) + "\n"


# ---- zsh


def quoted(text: str) -> str:
    """A word in single quotes, as zsh and fish read it."""
    return "'" + text.replace("'", "'\\''") + "'"


def zsh_text(text: str) -> str:
    """What tells of an option, between brackets."""
    return "".join("\\" + sign if sign in "[]:\\" else sign for sign in text.replace("`", ""))


def zsh_option(option: Option) -> str:
    """An option as _arguments takes it."""
    spec = ("*" if option.repeats else "") + f"{option.name}[{zsh_text(option.text)}]"
    if option.value:
        offered = f"({' '.join(values_of(option))})" if values_of(option) else "_files" if option.takes_file else " "
        spec += f":{zsh_text(option.value)}:{offered}"
    return quoted(spec)


def zsh_arguments(program: Program, indent: str) -> list[str]:
    """The call of _arguments with all that the program takes."""
    rows = [f"{indent}  {zsh_option(option)}" for option in program.options]
    rows += [f"{indent}  {quoted('*:file:_files')}"] if program.arguments else []
    return [f"{indent}_arguments \\", *(row + " \\" for row in rows[:-1]), rows[-1]] if rows else []


def zsh_commands(program: Program) -> list[str]:
    """The first word, then what a command takes."""
    offered = [f"{command.name}:{zsh_text(command.summary)}" for command in program.commands]
    offered += [f"{option.name}:{zsh_text(option.text)}" for option in program.options]
    lines = ["  local -a offered", "  offered=(", *(f"    {quoted(it)}" for it in offered), "  )"]
    lines += ["  if (( CURRENT == 2 )); then", "    _describe -t commands command offered", "    return", "  fi"]
    lines += ["  shift words", "  (( CURRENT-- ))", "  case $words[1] in"]
    for command in program.commands:
        inside = [f"      compadd -- {' '.join(command.names)}"] if command.names else zsh_arguments(command, "      ")
        lines += [f"    {command.name})", *inside, "      ;;"] if inside else []
    return [*lines, "  esac"]


def zsh(program: Program) -> str:
    name, function = program.name, function_of(program)
    inside = zsh_commands(program) if program.commands else zsh_arguments(program, "  ")
    lines = [f"#compdef {name}", f"# Zsh completion of {name}, made by help/write.", f"{function}() {{", *inside, "}"]
    return "\n".join([*lines, f'{function} "$@"']) + "\n"


# ---- fish


def fish_option(program: Program, option: Option, condition: str) -> str:
    line = f"complete -c {program.name} {condition}-l {option.name.removeprefix('--')} -d {fish_quoted(option.text.replace('`', ''))}"
    if not option.value:
        return line
    if values_of(option):
        return f"{line} -x -a {fish_quoted(' '.join(values_of(option)))}"
    return line + (" -r -F" if option.takes_file else " -x")


def fish_quoted(text: str) -> str:
    return "'" + text.replace("\\", "\\\\").replace("'", "\\'") + "'"


def fish(program: Program) -> str:
    name = program.name
    first = "-n __fish_use_subcommand " if program.commands else ""
    lines = [f"# Fish completion of {name}, made by help/write."]
    lines += [] if program.arguments else [f"complete -c {name} -f"]
    lines += [fish_option(program, option, first) for option in program.options]
    for command in program.commands:
        lines.append(f"complete -c {name} {first}-a {command.name} -d {fish_quoted(command.summary.replace('`', ''))}")
        behind = f"-n '__fish_seen_subcommand_from {command.name}' "
        if command.names:
            lines.append(f"complete -c {name} {behind}-a {fish_quoted(' '.join(command.names))}")
        lines += [f"complete -c {name} {behind}-F"] if command.arguments else []
        lines += [fish_option(program, option, behind) for option in command.options]
    return "\n".join(lines) + "\n"
