"""The words of the command line, from help.txt, and what is made of them: the manual page and completions."""
import os
import re
import textwrap

HERE = os.path.dirname(os.path.abspath(__file__))


class Entry:
    """A line of help.txt that stands two columns in, with the lines below it as one text."""

    def __init__(self, line):
        self.line, self.name, self.text = line, line.split()[0], ''
        # Each option with the name of its value, if it has one, and whether it is required.
        self.options = [(name, value, not before) for before, name, value in re.findall(r'(\[?)(--[a-z-]+)(?: ([A-Z][A-Z,-]*))?', line)]
        rest = re.sub(r'\[?--[a-z-]+(?: [A-Z][A-Z,-]*)?\]?', '', line).split()[1:]
        # What stands alone: nothing, or files, of which one is required where they have no brackets.
        self.files = ' '.join(rest)

    def summary(self):
        return re.split(r'[,.:](?: |$)', self.text)[0]


def sections(file=f'{HERE}/help.txt'):
    """What stands before the first heading, and the entries below each heading."""
    intro, found, at = [], {}, None
    with open(file, encoding='utf-8') as it:
        for line in it.read().split('\n'):
            if re.fullmatch(r'[A-Z].*:', line):
                at = found.setdefault(line.split(',')[0].rstrip(':'), [])
            elif at is None:
                intro.append(line)
            elif line.startswith('      '):
                at[-1].text = f'{at[-1].text} {line.strip()}'.strip()
            elif line:
                at.append(Entry(line.strip()))
    return '\n'.join(intro).strip(), found


def completed(commands):
    """Each command once, with its options in all its forms."""
    found = {}
    for it in commands:
        options = found.setdefault(it.name, (it, {}))[1]
        options.update({option: value for option, value, _ in it.options})
    return found.values()


def roff(text):
    """A text as a line of roff, in which `word` is bold."""
    text = text.replace('\\', r'\e').replace('-', r'\-').replace("'", r'\(aq')
    text = re.sub(r'`([^`]*)`', r'\\fB\1\\fR', text)
    return r'\&' + text if text.startswith(('.', "'")) else text


def usage_roff(line):
    """A usage line: names of options bold, names of values in italics."""
    text = roff(line)
    text = re.sub(r'(\\-\\-(?:[a-z]|\\-)+)', r'\\fB\1\\fR', text)
    return re.sub(r'\b([A-Z]+(?:(?:,|\\-)[A-Z]+)*)\b(?!\\)', r'\\fI\1\\fR', text)


def man_page(version, date):
    intro, found = sections()
    lines = [f'.TH LOCKSTEP 1 "{date}" "lockstep {version}" "User Commands"', '.SH NAME',
             r'lockstep \- core of a real\-time strategy game that is played in lockstep', '.SH SYNOPSIS',
             r'.B lockstep', r'.I COMMAND OPTIONS FILES', '.br', r'.B lockstep \-\-help', '.br',
             r'.B lockstep \-\-version', '.SH DESCRIPTION', roff(' '.join(intro.split('\n')[1:]).strip()),
             'Its function is proved: what it prints is what its definitions make of the files, whatever the network '
             'does.', '.PP', 'Options may stand before, between and after the names of files. The value of an option '
             r'is the next argument, or follows a \fB=\fR in the same one. After \fB\-\-\fR every argument is the '
             'name of a file.', '.SH COMMANDS']
    for it in found['Commands']:
        lines += [f'.SS {it.name}', f'\\fBlockstep {it.name}\\fR{usage_roff(it.line[len(it.name):])}', '.PP', roff(it.text)]
    for head in ('Options', 'Values', 'Exit status'):
        lines += [f'.SH {head.upper()}']
        for it in found[head]:
            mark = 'I' if head == 'Values' else 'B'
            lines += ['.TP', f'.{mark} {roff(it.line)}', roff(it.text)]
    lines += ['.SH FILES', '.TP', '.I /usr/share/doc/lockstep/README.md', 'Where the pages begin: the formats of files, '
              'what is printed, and what is proved.', '.TP', '.I /usr/share/doc/lockstep/examples',
              'Drills, scripts, replays, rules and maps.', '.SH SEE ALSO', '.BR lockstep\\-lint (1),', '.BR lockstep\\-viewer (1)']
    return '\n'.join(lines) + '\n'


def script_page(name, does, document, version, date):
    """The manual page of lockstep-NAME, which does this, from the head of its script."""
    parts = document.strip().split('\n\n')
    lines = [f'.TH LOCKSTEP\\-{name.upper()} 1 "{date}" "lockstep {version}" "User Commands"', '.SH NAME',
             f'lockstep\\-{name} \\- {does}', '.SH SYNOPSIS', f'.B lockstep\\-{name}',
             usage_roff(parts[1].split(' ', 2)[2]), '.SH DESCRIPTION']
    for part in parts[2:]:
        if part.startswith('  - '):
            for item in re.split(r'\n?  - ', part)[1:]:
                lines += [r'.IP \(bu 2', roff(' '.join(item.split()))]
        else:
            lines += ['.PP', roff(' '.join(part.split()))]
    return '\n'.join([*lines, '.SH SEE ALSO', '.BR lockstep (1)']) + '\n'


def bash_completion():
    _, found = sections()
    commands = completed(found['Commands'])
    those = lambda options, which: ' '.join(option for option, value in options.items() if which(value))
    cases = '\n'.join(f'        {it.name}) options="{" ".join(options)}" named="{those(options, lambda value: value == "FILE")}"'
                      f' plain="{those(options, lambda value: not value)}" files={"yes" if it.files else ""} ;;'
                      for it, options in commands)
    return textwrap.dedent('''\
        # Completes the command line of lockstep.
        _lockstep() {
            local word=${COMP_WORDS[COMP_CWORD]} before=${COMP_WORDS[COMP_CWORD-1]} options= named= plain= files=
            if [ "$before" = = ]; then before=${COMP_WORDS[COMP_CWORD-2]}; fi
            if [ "$word" = = ]; then
                before=${COMP_WORDS[COMP_CWORD-1]}
                word=
            fi
            COMPREPLY=()
            if [ "$COMP_CWORD" -eq 1 ]; then
                mapfile -t COMPREPLY < <(compgen -W "@COMMANDS@ --help --version" -- "$word")
                return
            fi
            case ${COMP_WORDS[1]} in
        @CASES@
            esac
            case " $named " in
                *" $before "*) mapfile -t COMPREPLY < <(compgen -f -- "$word"); return ;;
            esac
            case " $plain " in
                *" $before "*) ;;
                *) case " $options " in
                    *" $before "*) return ;;
                esac ;;
            esac
            case $word in
                -*) mapfile -t COMPREPLY < <(compgen -W "$options" -- "$word") ;;
                *) [ -z "$files" ] || mapfile -t COMPREPLY < <(compgen -f -- "$word") ;;
            esac
        }
        complete -o filenames -F _lockstep lockstep
        ''').replace('@COMMANDS@', ' '.join(it.name for it, _ in commands)).replace('@CASES@', cases)


def zsh_completion():
    _, found = sections()
    quoted = lambda text: text.replace("'", "'\\''").replace(':', '\\:').replace('[', '\\[').replace(']', '\\]')
    lines = ['#compdef lockstep', '', '_lockstep() {', '    local -a commands', '    commands=(']
    commands = completed(found['Commands'])
    lines += [f"        '{it.name}:{quoted(it.summary())}'" for it, _ in commands]
    lines += ["        '--help:Prints how it is used'", "        '--version:Prints the version'", '    )',
              '    if (( CURRENT == 2 )); then', '        _describe command commands', '        return', '    fi',
              '    local command=$words[2]', '    (( CURRENT-- ))', '    shift words', '    case $command in']
    for it, options in commands:
        specs = [f"'{option}=:{quoted(value)}:{'_files' if value == 'FILE' else ' '}'" if value else f"'{option}'"
                 for option, value in options.items()]
        specs += ["'*:FILE:_files'"] * bool(it.files)
        lines += [f'        {it.name}) _arguments {" ".join(specs)} ;;']
    return '\n'.join([*lines, '    esac', '}', '', '_lockstep "$@"', ''])
