"""What the bench's scripts read: the disassembly of a program, and the log that `steps` writes of its instructions."""
import array
import re
from collections import namedtuple

Instruction = namedtuple('Instruction', 'function mnemonic operands after')
# The words of the kernel's struct user_regs_struct.
REGISTERS = 'r15 r14 r13 r12 rbp rbx r11 r10 r9 r8 rax rcx rdx rsi rdi orig_rax rip cs eflags rsp ss fs_base gs_base ds es fs gs'.split()


def instructions(path):
    """The instructions of a program by their addresses, from its disassembly with Intel's operands: the function, the mnemonic, the operands, and the
    address of what comes after."""
    found, function, last = {}, None, None
    with open(path, encoding='utf-8') as lines:
        for line in lines:
            label = re.fullmatch(r'[0-9a-f]+ <(.+)>:\n', line)
            code = re.fullmatch(r'\s*([0-9a-f]+):\s+(\S+)(?:[ \t]+([^#\n]*))?(?:#.*)?\n', line)
            if label:
                function = label.group(1)
            elif code:
                at = int(code.group(1), 16)
                if last is not None:
                    found[last] = found[last]._replace(after=at)
                operands = re.sub(r'\s*<[^>]*>', '', code.group(3) or '').strip()
                found[at], last = Instruction(function, code.group(2), [o.strip() for o in operands.split(',')] if operands else [], None), at
    return found


def words(path):
    """The words of a log."""
    log = array.array('Q')
    with open(path, 'rb') as file:
        log.frombytes(file.read())
    return log


def states(path):
    """The registers before each instruction of a log."""
    log, width = words(path), len(REGISTERS)
    for k in range(0, len(log), width):
        yield dict(zip(REGISTERS, log[k:k + width]))
