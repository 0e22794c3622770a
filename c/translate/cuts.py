"""What a small library is built without: functions of the proved library that nothing reaches any more.

Who builds without a way to the card, a kind of card or a request never comes to what stands here by its name in Rattle: kelifandro.c goes
the other way alone and has no such request, and by struct kelifandro_way no card of that kind is asked whether it is ready. So a trap
takes the place of their bodies, and the compiler finds what nobody needs then."""
import re

CUTS = {
    'host': [r'c_host::stream::Stream::(set_ios|set_power|send|is_busy|read_block|write_block|read_with|write_with|send_with)\b'],
    'registers': [r'mmc_sdhci::sdhci::Sdhci'],
    'mmc': [r'mmc_identify::mmc::assign\b', r'mmc_switch::mmc::(widen|switch)\b', r'mmc_switch::registers::mmc_info\b'],
    'sd': [r'mmc_identify::sd::publish\b', r'mmc_switch::sd::widen\b', r'mmc_switch::registers::sd_info\b'],
    'erase': [r'mmc_erase::whole::erase_run\b'],
    'write': [r'mmc_transfer::whole::write_run\b', r'mmc_erase::whole::erase_run\b'],
}
DEFINITION = re.compile(r'define .*?@(?:"([^"]*)"|(\w+))\(')


def without(lines, words):
    """The lines of a module where what these words stand for has no body. A name that no function has is refused."""
    patterns = {re.compile(pattern): 0 for word in words for pattern in CUTS[word]}
    is_inside = False
    for line in lines:
        start = DEFINITION.match(line)
        hits = [pattern for pattern in patterns if pattern.match(start[1] or start[2])] if start else []
        for pattern in hits:
            patterns[pattern] += 1
        if hits:
            is_inside = True
            yield from (line, 'start:', '  call void @llvm.trap()', '  unreachable')
        elif not is_inside or line == '}':
            is_inside = False
            yield line
    lost = [pattern.pattern for pattern, count in patterns.items() if not count]
    if lost:
        raise LookupError('no function is called %s' % ', '.join(lost))


def kept(lines, has):
    """The lines of a module that exports only what a file has: nobody else calls the rest any more, and the compiler leaves it out."""
    for line in lines:
        start = DEFINITION.match(line)
        is_other = start and not re.match(r'define (internal|private) ', line) and not has(start[1] or start[2])
        yield line.replace('define ', 'define internal ', 1) if is_other else line
