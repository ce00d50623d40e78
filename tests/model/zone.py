"""A zone of the Memory Manager, as a small model.

It is written from the rules of docs/SCRIPT.md and docs/DIFFERENCES.md alone, and shares nothing with the program: blocks are a list,
handles and pointers a dictionary.
"""
PARAM, NIL, DEAD, FULL, LOCKED, LENT, NO_BLOCK = -50, -109, -111, -108, -112, -117, -115
MOST_ANSWERS = 16
MAX_SIZE = 8388608
LOCK, PURGE, RESOURCE = 128, 64, 32
FLAG_CALLS = {
    "HLock": (LOCK, True),
    "HUnlock": (LOCK, False),
    "HPurge": (PURGE, True),
    "HNoPurge": (PURGE, False),
    "HSetRBit": (RESOURCE, True),
    "HClrRBit": (RESOURCE, False),
}


class Refused(Exception):
    """A call is refused with this code."""


class NoRoom(Exception):
    """An attempt finds no room. Nothing has changed."""


class Owner:
    """A live handle or pointer: its bytes (None of an empty handle), and a handle's flags."""

    def __init__(self, is_handle, contents):
        self.is_handle, self.contents, self.flags = is_handle, contents, 0


class Block:
    """A block of the zone: its size, and the number of its owner; 'free' and 'master' are none's."""

    def __init__(self, size, owner):
        self.size, self.owner = size, owner


class Zone:
    def __init__(self, mode, size, limit, base):
        self.head, self.least = (8, 12) if mode == 24 else (12, 16)
        self.first, self.limit = base + 52, limit
        self.answers, self.asked = [], []
        master = self.needed(256)
        self.blocks = [Block(master, "master"), Block(size - 52 - master, "free")]
        self.slots = [self.first + self.head + 4 * it for it in range(64)]
        self.live, self.lent, self.refused = {}, [], 0
        # what calls did, for who shows a run: ("purged" or "disposed", a number), ("grown", bytes), ("answered", needed, value, calls)
        self.happened = []

    def needed(self, length):
        return max(self.least, (length + self.head + 3) // 4 * 4)

    def placed(self):
        """The blocks, each with its header's address."""
        at = self.first
        for block in self.blocks:
            yield at, block
            at += block.size

    def place_of(self, number):
        return next(at for at, block in self.placed() if block.owner == number)

    # what refuses a call

    def test(self, fails, code):
        if fails:
            raise Refused(code)

    def is_handle(self, number):
        return number in self.live and self.live[number].is_handle

    def handle(self, number):
        self.test(number == 0, NIL)
        self.test(not self.is_handle(number), DEAD)
        return self.live[number]

    def pointer(self, number):
        self.test(number not in self.live or self.is_handle(number), DEAD)
        return self.live[number]

    def either(self, number):
        self.test(number == 0, NIL)
        self.test(number not in self.live, DEAD)
        return self.live[number]

    def full_handle(self, number):
        owner = self.handle(number)
        self.test(owner.contents is None, NIL)
        return owner

    def not_lent(self, number):
        self.test(number in self.lent, LENT)

    def within(self, owner, at, count):
        self.test(at + count > len(owner.contents), PARAM)

    # what calls do to blocks

    def growth_left(self):
        return self.limit - 52 - sum(it.size for it in self.blocks)

    def grow(self):
        if self.growth_left():
            self.happened.append(("grown", self.growth_left()))
            self.blocks.append(Block(self.growth_left(), "free"))
            self.join()

    def largest(self):
        return max([it.size for it in self.blocks if it.owner == "free"], default=0)

    def is_fixed(self, owner):
        return owner == "master" or owner in self.live and (not self.live[owner].is_handle or bool(self.live[owner].flags & LOCK))

    def gaps(self):
        """The gaps, lowest first: the index of the first block of each, and that after its last."""
        start, gaps = 0, []
        for index, block in enumerate(self.blocks):
            if self.is_fixed(block.owner):
                gaps.append((start, index))
                start = index + 1
        return [*gaps, (start, len(self.blocks))]

    def room(self, gap):
        return sum(it.size for it in self.blocks[slice(*gap)] if it.owner == "free")

    def arrange(self, gap, front, after):
        """Puts the gap's free bytes between blocks of it."""
        free = [Block(self.room(gap), "free")] if self.room(gap) else []
        self.blocks[slice(*gap)] = [*front, *free, *after]

    def used(self, gap):
        return [it for it in self.blocks[slice(*gap)] if it.owner != "free"]

    def arrange_down(self, gap):
        self.arrange(gap, self.used(gap), [])

    def arrange_up(self, gap):
        self.arrange(gap, [], self.used(gap))

    def lowest_gap(self, needed):
        for gap in self.gaps():
            if self.room(gap) >= needed:
                return gap
        raise NoRoom

    def index_of(self, number):
        return next(index for index, it in enumerate(self.blocks) if it.owner == number)

    def own_gap(self, number):
        index = self.index_of(number)
        return next(gap for gap in self.gaps() if gap[0] <= index < gap[1])

    def gap_behind(self, number):
        index = self.index_of(number)
        return next(gap for gap in self.gaps() if gap[0] == index + 1)

    def take_front(self, index, needed, owner):
        """Gives the front of a free block to an owner."""
        size = self.blocks[index].size
        given = needed if size - needed >= self.least else size
        rest = [Block(size - given, "free")] if given < size else []
        self.blocks[index : index + 1] = [Block(given, owner), *rest]

    def place_relocatable(self, needed, owner):
        free = [index for index, it in enumerate(self.blocks) if it.owner == "free" and it.size >= needed]
        if not free:
            gap = self.lowest_gap(needed)
            free = [gap[0] + len(self.used(gap))]
            self.arrange_down(gap)
        self.take_front(free[0], needed, owner)

    def clear_gap(self, needed):
        """The lowest gap with room begins with the free bytes; the index of its first block, and its address."""
        gap = self.lowest_gap(needed)
        first = self.blocks[gap[0]]
        if first.owner != "free" or first.size < needed:
            self.arrange_up(gap)
        return gap[0], self.first + sum(it.size for it in self.blocks[: gap[0]])

    def place_fixed(self, needed, owner):
        index, at = self.clear_gap(needed)
        self.take_front(index, needed, owner or at + self.head)
        return at + self.head

    def resize_there(self, number, needed):
        """Whether the block can have the size where it is, which is done."""
        index = self.index_of(number)
        block, after = self.blocks[index], self.blocks[index + 1 : index + 2]
        whole = block.size
        if needed > whole:
            whole += sum(it.size for it in after if it.owner == "free")
            if whole < needed:
                return False
            del self.blocks[index + 1]
        block.size = needed if whole - needed >= self.least else whole
        if block.size < whole:
            self.blocks.insert(index + 1, Block(whole - block.size, "free"))
            self.join()
        return True

    def resize(self, number, needed):
        if self.resize_there(number, needed):
            return
        stays = self.is_fixed(number)
        gap = self.gap_behind(number) if stays else self.own_gap(number)
        if self.blocks[self.index_of(number)].size + self.room(gap) >= needed:
            if stays:
                self.arrange_up(gap)
            else:
                used = self.used(gap)
                place = next(index for index, it in enumerate(used) if it.owner == number) + 1
                self.arrange(gap, used[:place], used[place:])
            assert self.resize_there(number, needed)
            return
        if stays:
            raise NoRoom
        self.place_relocatable(needed, "new")
        self.blocks[self.index_of(number)].owner = "free"
        self.blocks[self.index_of("new")].owner = number
        self.join()

    def free(self, number):
        self.blocks[self.index_of(number)].owner = "free"
        self.join()

    def join(self):
        joined = []
        for block in self.blocks:
            if joined and joined[-1].owner == block.owner == "free":
                joined[-1].size += block.size
            else:
                joined.append(block)
        self.blocks = joined

    def candidates(self, protected, blocks=None):
        """The handles that may be purged, in order of address."""
        owners = [it.owner for it in (self.blocks if blocks is None else blocks) if it.owner in self.live]
        return [it for it in owners if it not in protected and self.live[it].is_handle and self.live[it].flags & (LOCK | PURGE) == PURGE]

    def purge(self, number):
        self.happened.append(("purged", number))
        self.free(number)
        self.live[number] = Owner(True, None)

    # requests: trials, and the grow-zone procedure between them

    def trial(self, attempt, protected, candidates):
        """Makes attempts: in the zone as it is, grown to its limit, and with one handle more purged each."""
        try:
            return attempt()
        except NoRoom:
            self.grow()
        left = candidates()
        while True:
            try:
                return attempt()
            except NoRoom:
                if not left:
                    raise
                self.purge(left.pop(0))

    def request(self, needed, attempt, protected=(), candidates=None):
        candidates = candidates or (lambda: self.candidates(protected))
        while True:
            try:
                return self.trial(attempt, protected, candidates)
            except NoRoom:
                pass
            if len(self.asked) == MOST_ANSWERS or not self.answers:
                raise Refused(FULL)
            calls, value = self.answers.pop(0)
            self.asked.append((needed, value))
            self.happened.append(("answered", needed, value, [it for it in calls if it[1] not in protected]))
            for name, number in calls:
                if number not in protected:
                    try:
                        self.calls()[name](self, number)
                    except Refused:
                        pass
            if value == 0:
                raise Refused(FULL)

    def request_growth(self, number, length, protected):
        """As request_size, for a call that copies: it protects both operands, and no length is refused as such."""
        needed = self.needed(length)
        stays = self.is_fixed(number)
        after = (lambda: self.candidates(protected, self.blocks[slice(*self.gap_behind(number))])) if stays else None
        self.request(needed, lambda: self.resize(number, needed), protected, after)

    def slot(self, protected=()):
        """The slot that the next new handle takes; where there is none, a master block is built first."""
        if not self.slots:
            self.more_masters(protected)

    def request_size(self, number, length):
        self.test(length > MAX_SIZE, PARAM)
        self.request_growth(number, length, [number])
        owner = self.live[number]
        owner.contents = owner.contents[:length] + bytes(max(0, length - len(owner.contents)))

    def make_handle(self, contents, protected=()):
        self.slot(protected)
        needed = self.needed(len(contents))
        self.request(needed, lambda: self.place_relocatable(needed, self.slots[0]), protected)
        number = self.slots.pop(0)
        self.live[number] = Owner(True, bytearray(contents))
        return address(number)

    def calls(self):
        """The calls that there are, by their names, but for those on flags and MemError."""
        return CALLS

    # the calls: each gives its results, as they are printed

    def new_handle(self, length):
        self.test(length > MAX_SIZE, PARAM)
        return self.make_handle(bytes(length))

    def new_empty_handle(self):
        self.slot()
        number = self.slots.pop(0)
        self.live[number] = Owner(True, None)
        return address(number)

    def new_ptr(self, length):
        self.test(length > MAX_SIZE, PARAM)
        needed = self.needed(length)
        number = self.request(needed, lambda: self.place_fixed(needed, None))
        self.live[number] = Owner(False, bytearray(length))
        return address(number)

    def more_masters(self, protected=()):
        needed = self.needed(256)
        at = self.request(needed, lambda: self.place_fixed(needed, "master"), protected)
        self.slots = [at + 4 * it for it in range(64)] + self.slots

    def reserve_mem(self, length):
        self.test(length > MAX_SIZE, PARAM)
        needed = self.needed(length)
        self.request(needed, lambda: self.clear_gap(needed))

    def compact_mem(self, size):
        self.test(size > MAX_SIZE, PARAM)
        if self.largest() < size:
            fitting = [gap for gap in self.gaps() if self.room(gap) >= size][:1]
            self.compact(fitting or self.gaps())
        return str(self.largest())

    def compact(self, gaps):
        for gap in reversed(gaps):
            self.arrange_down(gap)

    def purge_mem(self, size):
        self.test(size > MAX_SIZE, PARAM)
        for number in self.candidates([]):
            if self.largest() >= size:
                return
            self.purge(number)
        self.test(self.largest() < size, FULL)

    def max_mem(self):
        for number in self.candidates([]):
            self.purge(number)
        self.compact(self.gaps())
        return f"{self.largest()} {self.growth_left()}"

    def move_hhi(self, number):
        owner = self.full_handle(number)
        self.test(owner.flags & LOCK, LENT)
        gap = self.own_gap(number)
        used = self.used(gap)
        self.arrange(gap, [it for it in used if it.owner != number], [it for it in used if it.owner == number])

    def hlock_hi(self, number):
        self.move_hhi(number)
        self.live[number].flags |= LOCK

    def recover_handle(self, at):
        for place, block in self.placed():
            if place + self.head == at and block.owner in self.live and self.live[block.owner].is_handle:
                return address(block.owner)
        raise Refused(NO_BLOCK)

    def reallocate_handle(self, number, length):
        owner = self.handle(number)
        self.not_lent(number)
        self.test(owner.flags & LOCK, LOCKED)
        self.test(length > MAX_SIZE, PARAM)
        needed = self.needed(length)

        def attempt():
            before = [Block(it.size, it.owner) for it in self.blocks]
            for block in self.blocks:
                if block.owner == number:
                    block.owner = "free"
            self.join()
            try:
                self.place_relocatable(needed, number)
            except NoRoom:
                self.blocks = before
                raise

        self.request(needed, attempt, [number])
        self.live[number] = Owner(True, bytearray(length))

    def readable(self, number):
        """The owner of a block whose bytes a call reads or writes."""
        owner = self.either(number)
        self.test(owner.contents is None, NIL)
        self.not_lent(number)
        return owner

    def full_and_here(self, number):
        owner = self.full_handle(number)
        self.not_lent(number)
        return owner

    def source(self, pointer):
        owner = self.pointer(pointer)
        self.not_lent(pointer)
        return owner

    def hand_to_hand(self, number):
        contents = self.full_and_here(number).contents
        return self.make_handle(contents, [number])

    def ptr_to_hand(self, pointer, count):
        owner = self.source(pointer)
        self.within(owner, 0, count)
        return self.make_handle(owner.contents[:count], [pointer])

    def give_bytes(self, number, contents, protected):
        self.request_growth(number, len(contents), protected)
        self.live[number].contents = bytearray(contents)

    def ptr_to_xhand(self, pointer, number, count):
        owner = self.source(pointer)
        self.full_and_here(number)
        self.within(owner, 0, count)
        self.give_bytes(number, owner.contents[:count], [pointer, number])

    def ptr_and_hand(self, pointer, number, count):
        owner = self.source(pointer)
        target = self.full_and_here(number)
        self.within(owner, 0, count)
        self.give_bytes(number, target.contents + owner.contents[:count], [pointer, number])

    def hand_and_hand(self, number, other):
        owner = self.full_and_here(number)
        target = self.full_and_here(other)
        self.give_bytes(other, target.contents + owner.contents, [number, other])

    def block_move(self, number, start, other, offset, count):
        owner, target = self.readable(number), self.readable(other)
        self.within(owner, start, count)
        self.within(target, offset, count)
        moved = owner.contents[start : start + count]
        target.contents[offset : offset + count] = moved

    def free_mem(self):
        return str(sum(it.size for it in self.blocks if it.owner == "free"))

    def max_block(self):
        return str(max(self.room(gap) for gap in self.gaps()))

    def purge_space(self):
        def space(blocks):
            purged = self.candidates([], blocks)
            return sum(it.size for it in blocks if it.owner == "free" or it.owner in purged)

        return f"{space(self.blocks)} {max(space(self.blocks[slice(*gap)]) for gap in self.gaps())}"

    def dispose_handle(self, number):
        owner = self.handle(number)
        self.not_lent(number)
        self.happened.append(("disposed", number))
        if owner.contents is not None:
            self.free(number)
        del self.live[number]
        self.slots.insert(0, number)

    def dispose_ptr(self, number):
        self.pointer(number)
        self.not_lent(number)
        self.happened.append(("disposed", number))
        self.free(number)
        del self.live[number]

    def empty_handle(self, number):
        owner = self.handle(number)
        self.not_lent(number)
        self.test(owner.flags & LOCK, LOCKED)
        if owner.contents is not None:
            self.free(number)
        self.live[number] = Owner(True, None)

    def set_handle_size(self, number, length):
        self.full_handle(number)
        self.not_lent(number)
        self.request_size(number, length)

    def set_ptr_size(self, number, length):
        self.pointer(number)
        self.not_lent(number)
        self.request_size(number, length)

    def get_handle_size(self, number):
        return str(len(self.full_handle(number).contents))

    def get_ptr_size(self, number):
        return str(len(self.pointer(number).contents))

    def flag(self, name, number):
        owner = self.full_handle(number)
        bit, is_set = FLAG_CALLS[name]
        if name == "HUnlock":
            self.not_lent(number)
        owner.flags = owner.flags | bit if is_set else owner.flags & ~bit

    def hget_state(self, number):
        return str(self.full_handle(number).flags)

    def hset_state(self, number, state):
        owner = self.full_handle(number)
        self.test(state > 255, PARAM)
        self.test(number in self.lent and not state & LOCK, LENT)
        owner.flags = state & (LOCK | PURGE | RESOURCE)

    def deref(self, number):
        self.full_handle(number)
        return address(self.place_of(number) + self.head)

    def part(self, number, at, count):
        owner = self.readable(number)
        self.within(owner, at, count)
        return owner

    def peek(self, number, at, count):
        return shown(self.part(number, at, count).contents[at : at + count])

    def poke(self, number, at, data):
        self.part(number, at, len(data)).contents[at : at + len(data)] = data

    def lend(self, number):
        owner = self.either(number)
        self.test(owner.contents is None, NIL)
        self.not_lent(number)
        self.test((owner.is_handle and not owner.flags & LOCK) or len(self.lent) == 8, PARAM)
        self.lent.append(number)

    def loan(self, number):
        owner = self.either(number)
        self.test(number not in self.lent, PARAM)
        return owner

    def lent_peek(self, number, at, count):
        owner = self.loan(number)
        self.within(owner, at, count)
        return shown(owner.contents[at : at + count])

    def lent_poke(self, number, at, data):
        owner = self.loan(number)
        self.within(owner, at, len(data))
        owner.contents[at : at + len(data)] = data

    def return_(self, number):
        self.loan(number)
        self.lent.remove(number)

    def zone_map(self):
        lines = [str(len(self.blocks)) + " 0"]
        for at, block in self.placed():
            what = block.owner
            if what in self.live:
                owner = self.live[what]
                flags = "".join(name if owner.flags & bit else "-" for name, bit in (("L", LOCK), ("P", PURGE), ("R", RESOURCE)))
                length = len(owner.contents)
                what = f"rel {address(what)} {length} {flags}" if owner.is_handle else f"ptr {length}"
            lines.append(f"  {address(at)} {block.size} {what}")
        return "\n".join(lines)

    def reply(self, name, operands):
        """What the call prints after its name."""
        if name == "MemError":
            return f"{self.refused} 0"
        self.asked = []
        try:
            made = self.flag(name, *operands) if name in FLAG_CALLS else self.calls()[name](self, *operands)
        except Refused as refused:
            self.refused = refused.args[0]
            said = str(self.refused)
        else:
            self.refused = 0
            said = made if name == "ZoneMap" else f"{made} 0" if made is not None else "0"
        return said + "".join(f"\n  gz {needed} {value}" for needed, value in self.asked)


CALLS = {
    "NewHandle": Zone.new_handle,
    "NewEmptyHandle": Zone.new_empty_handle,
    "NewPtr": Zone.new_ptr,
    "DisposeHandle": Zone.dispose_handle,
    "DisposePtr": Zone.dispose_ptr,
    "EmptyHandle": Zone.empty_handle,
    "SetHandleSize": Zone.set_handle_size,
    "SetPtrSize": Zone.set_ptr_size,
    "GetHandleSize": Zone.get_handle_size,
    "GetPtrSize": Zone.get_ptr_size,
    "HGetState": Zone.hget_state,
    "HSetState": Zone.hset_state,
    "Deref": Zone.deref,
    "Peek": Zone.peek,
    "Poke": Zone.poke,
    "Lend": Zone.lend,
    "LentPeek": Zone.lent_peek,
    "LentPoke": Zone.lent_poke,
    "Return": Zone.return_,
    "ZoneMap": Zone.zone_map,
    "ReserveMem": Zone.reserve_mem,
    "MoreMasters": Zone.more_masters,
    "CompactMem": Zone.compact_mem,
    "PurgeMem": Zone.purge_mem,
    "MaxMem": Zone.max_mem,
    "MaxApplZone": Zone.grow,
    "MoveHHi": Zone.move_hhi,
    "HLockHi": Zone.hlock_hi,
    "RecoverHandle": Zone.recover_handle,
    "ReallocateHandle": Zone.reallocate_handle,
    "HandToHand": Zone.hand_to_hand,
    "PtrToHand": Zone.ptr_to_hand,
    "PtrToXHand": Zone.ptr_to_xhand,
    "PtrAndHand": Zone.ptr_and_hand,
    "HandAndHand": Zone.hand_and_hand,
    "BlockMove": Zone.block_move,
    "FreeMem": Zone.free_mem,
    "MaxBlock": Zone.max_block,
    "PurgeSpace": Zone.purge_space,
}


def address(number):
    return f"${number:08X}"


def shown(data):
    if all(0x20 <= it <= 0x7E and it != 0x22 for it in data):
        return '"' + data.decode() + '"'
    return '$"' + data.hex().upper() + '"'
