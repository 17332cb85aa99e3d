"""Which bytes of memory hold a pointer and which a number, over all functions of a module at once.

A block is a local, or what a parameter or a stored pointer points to; two blocks are joined (union-find) wherever one pointer may be to
either. A place is a block and an offset. Each byte that is read or written is a cell of its block; a block that is indexed by a variable
is one cell with all its bytes. Copies join the cells of both sides, byte by byte. So a byte that may be a pointer's in one place and a
number's in another is one cell with both kinds, and is told."""


class Cells:
    def __init__(self):
        self.block_of, self.fields, self.whole = [], [], []
        self.cell_of, self.kinds, self.points_to, self.copies, self.cleared = [], [], {}, [], []

    def block(self):
        self.block_of.append(len(self.block_of))
        self.fields.append({})
        self.whole.append(None)
        return len(self.block_of) - 1

    def find(self, block):
        while self.block_of[block] != block:
            self.block_of[block] = self.block_of[self.block_of[block]]
            block = self.block_of[block]
        return block

    def new_cell(self):
        self.cell_of.append(len(self.cell_of))
        self.kinds.append({})
        return len(self.cell_of) - 1

    def root(self, cell):
        while self.cell_of[cell] != cell:
            self.cell_of[cell] = self.cell_of[self.cell_of[cell]]
            cell = self.cell_of[cell]
        return cell

    def cell(self, place):
        block, offset = self.find(place[0]), place[1]
        if self.whole[block] is not None:
            return self.root(self.whole[block])
        if offset not in self.fields[block]:
            self.fields[block][offset] = self.new_cell()
        return self.root(self.fields[block][offset])

    def number(self, place, size, where):
        for byte in range(size):
            self.kinds[self.cell((place[0], place[1] + byte))].setdefault("number", where)

    def pointer(self, place, where):
        """The place that the pointer at a place points to."""
        cell = self.cell(place)
        self.kinds[cell].setdefault("pointer", where)
        if cell not in self.points_to:
            self.points_to[cell] = (self.block(), 0)
        return self.points_to[cell]

    def join_cells(self, one, other):
        one, other = self.root(one), self.root(other)
        if one == other:
            return
        self.cell_of[other] = one
        for kind, where in self.kinds[other].items():
            self.kinds[one].setdefault(kind, where)
        places = [self.points_to.pop(cell) for cell in (one, other) if cell in self.points_to]
        if places:
            self.points_to[one] = places[0]
            self.join(places[0], places[-1])

    def index(self, block):
        """The block is indexed by a variable: one cell from here on."""
        block = self.find(block)
        if self.whole[block] is None:
            cells = list(self.fields[block].values())
            self.fields[block] = {}
            self.whole[block] = self.new_cell()
            for cell in cells:
                self.join_cells(self.whole[self.find(block)], cell)

    def join(self, one, other):
        """Two places that may be one."""
        if self.find(one[0]) == self.find(other[0]):
            if one[1] != other[1]:
                self.index(one[0])
            return
        if one[1] != other[1] or any(self.whole[self.find(block)] is not None for block, _ in (one, other)):
            self.index(one[0])
            self.index(other[0])
        to, gone = self.find(one[0]), self.find(other[0])
        if to == gone:
            return
        self.block_of[gone] = to
        fields, self.fields[gone] = self.fields[gone], {}
        if self.whole[gone] is not None:
            self.join_cells(self.whole[to], self.whole[gone])
        for offset, cell in fields.items():
            self.join_cells(self.cell((to, offset)), cell)

    def copy(self, to, source, size):
        """Settled at the end, since cells come later too."""
        self.copies.append((to, source, size))

    def zeros(self, place, size):
        """Bytes become 0: the number 0 and the null pointer alike, in 4 bytes and in 8, where no pointer is cut."""
        self.cleared.append((place, size))

    def settle(self):
        changed = True
        while changed:
            changed = False
            for to, source, size in self.copies:
                for byte in self.seen(to, size) | self.seen(source, size):
                    one, other = self.cell((to[0], to[1] + byte)), self.cell((source[0], source[1] + byte))
                    if one != other:
                        self.join_cells(one, other)
                        changed = True

    def seen(self, place, size):
        """Which bytes of a copy are cells already."""
        block = self.find(place[0])
        if self.whole[block] is not None:
            return {0}
        return {offset - place[1] for offset in self.fields[block] if place[1] <= offset < place[1] + size}

    def faults(self):
        self.settle()
        for cell, kinds in enumerate(self.kinds):
            if self.cell_of[cell] == cell and len(kinds) > 1:
                yield f"a byte is a pointer's and a number's\n  {kinds['pointer']}\n  {kinds['number']}"
        for block, whole in enumerate(self.whole):
            if self.block_of[block] == block and whole is not None and "pointer" in self.kinds[self.root(whole)]:
                yield f"a pointer in memory that is indexed by a variable\n  {self.kinds[self.root(whole)]['pointer']}"
            if self.block_of[block] == block:
                yield from self.overlaps(block)
        for to, source, size in self.copies:
            for block, start in (to, source):
                for at, where in self.pointers_of(block):
                    if at < start + size and start < at + 8 and not start <= at <= start + size - 8:
                        yield f"a copy of {size} bytes cuts a pointer\n  {where}"
        for (block, start), size in self.cleared:
            for at, where in self.pointers_of(block):
                if at < start + size and start < at + 8 and not start <= at <= start + size - 8:
                    yield f"{size} bytes of 0 cut a pointer\n  {where}"

    def overlaps(self, block):
        for at, where in self.pointers_of(block):
            for byte in range(at + 1, at + 8):
                kinds = self.kinds[self.root(self.fields[block][byte])] if byte in self.fields[block] else {}
                if kinds:
                    yield f"within a pointer's bytes\n  {where}\n  {next(iter(kinds.values()))}"

    def pointers_of(self, block):
        found = ((at, self.kinds[self.root(cell)].get("pointer")) for at, cell in self.fields[self.find(block)].items())
        return [(at, where) for at, where in found if where]

    def pointer_count(self):
        return sum(1 for cell, kinds in enumerate(self.kinds) if self.cell_of[cell] == cell and "pointer" in kinds)
