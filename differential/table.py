"""A model of the type table, for making inputs: what a descriptor of a type looks like, how long a value is,
and which inputs stand outside the comparison (see `compared`). Its answers are never compared with anything."""

NO_CONST = 4294967295
DEPTH = 64
UNFOLDING = 65536
U64 = 1 << 64
INT, PHYSICAL, ENUM, REAL, ARRAY, RECORD, ACCESS, FILE, PROTECTED = range(9)


class Refused(Exception):
    """A layout's 11 or 12."""


class Apart(Exception):
    """An input on which the Rust differs by a named difference."""


class Table:
    """Types are tuples that begin with the class: (INT, lo, hi), (ENUM, literals, logic), (ARRAY, elem, const, dims),
    (RECORD, ((type, const), ..)), others (class,). Constants are bytes, or None for one that is not plain bytes."""

    def __init__(self, types=(), consts=()):
        self.types = list(types)
        self.consts = list(consts)
        self._handles = {}
        self._descs = {}

    def get(self, t):
        return self.types[t] if 0 <= t < len(self.types) else None

    def children(self, t):
        ty = self.types[t]
        if ty[0] == ARRAY:
            return [ty[1]]
        if ty[0] == RECORD:
            return [f[0] for f in ty[1]]
        return []

    def unfolding(self):
        """The greatest unfolding of a type, held at UNFOLDING + 1."""
        n = len(self.types)
        below = [self.children(t) for t in range(n)]
        count = [1] * n
        for _ in range(DEPTH):
            count = [min(UNFOLDING + 1, 1 + sum(count[c] if c < n else 1 for c in below[t])) for t in range(n)]
        return max(count, default=0)

    def lines(self):
        out = ["const " + ("other" if c is None else show_hex(c)) for c in self.consts]
        return out + [type_line(t) for t in self.types]

    def const(self, c):
        return self.consts[c] if c < len(self.consts) else None

    def desc_size(self, t):
        """Bytes of a descriptor, or None."""
        if t not in self._descs:
            self._descs[t] = self._desc_size(t, 0)
        return self._descs[t]

    def _desc_size(self, t, depth):
        ty = self.get(t)
        if depth > DEPTH or ty is None:
            return None
        if ty[0] == ARRAY:
            e = self._desc_size(ty[1], depth + 1) if ty[2] == NO_CONST else 0
            return None if e is None else 24 * ty[3] + e
        n = 0
        if ty[0] == RECORD:
            for f, c in ty[1]:
                if c == NO_CONST:
                    e = self._desc_size(f, depth + 1)
                    if e is None:
                        return None
                    n += e
        return n

    def has_handles(self, t):
        if t not in self._handles:
            self._handles[t] = self._has_handles(t, 0)
        return self._handles[t]

    def _has_handles(self, t, depth):
        ty = self.get(t)
        if depth > DEPTH or ty is None or ty[0] in (ACCESS, PROTECTED):
            return True
        if ty[0] == ARRAY:
            return self._has_handles(ty[1], depth + 1)
        return ty[0] == RECORD and any(self._has_handles(f, depth + 1) for f, _ in ty[1])

    def logic_leaf(self, t):
        for _ in range(64):
            ty = self.get(t)
            if ty is None or ty[0] not in (ARRAY, ENUM):
                return 0
            if ty[0] == ENUM:
                return ty[2]
            t = ty[1]
        return 0

    def layout(self, t, desc, depth=0):
        """(size, align, stride, count, used, offsets); raises Refused or Apart."""
        ty = self.get(t)
        if depth > DEPTH or ty is None:
            raise Refused(11)
        size = scalar_size(ty)
        if size is not None:
            return size, size, 0, 1, 0, []
        if ty[0] == ARRAY:
            return self._array(t, ty, desc, depth)
        return self._record(ty, desc, depth)

    def _array(self, t, ty, desc, depth):
        _, elem, const, dims = ty
        count = 1
        for d in range(dims):
            row = desc[24 * d : 24 * d + 24]
            if len(row) < 24:
                raise Refused(11)
            left, right, way = (signed(row[k : k + 8]) for k in (0, 8, 16))
            if way not in (0, 1):
                raise Refused(11)
            lo, hi = (right, left) if way else (left, right)
            n = max(0, hi - lo + 1)
            count *= n
            if n >= U64 or count >= U64:
                raise Refused(12)
        used = 24 * dims
        size, align, _, inner, eused, _ = self.layout(elem, self.below(const, desc, used), depth + 1)
        if const == NO_CONST:
            used += eused
        e = self.types[elem]
        if e[0] == INT and e[1] >= -(1 << 31) and e[2] < 1 << 31:
            size = align = 4
        if self.logic_leaf(t):
            n = count * inner
            if n >= U64 or (n + 63) // 64 * 32 >= U64:
                raise Refused(12)
            return (n + 63) // 64 * 32, 8, 0, n, used, []
        stride = aligned(size, align)
        if stride * count >= U64:
            raise Refused(12)
        return stride * count, align, stride, count, used, []

    def _record(self, ty, desc, depth):
        off, align, used, offsets = 0, 1, 0, []
        for f, c in ty[1]:
            size, al, _, _, fused, _ = self.layout(f, self.below(c, desc, used), depth + 1)
            if c == NO_CONST:
                used += fused
            off = aligned(off, al)
            offsets.append(off)
            off += size
            if off >= U64:
                raise Refused(12)
            align = max(align, al)
        return aligned(off, align), align, 0, 1, used, offsets

    def below(self, const, desc, used):
        if const == NO_CONST:
            return desc[used:]
        b = self.const(const)
        if b is None:
            raise Refused(11)
        return b

    def compared(self, t, desc, data, budget=4000):
        """Is a trace of the value inside the comparison? Not if an aligning overflows or an array of stride 0 is walked long."""
        try:
            self._turns(t, desc, len(data), budget)
            return True
        except Apart:
            return False

    def object_compared(self, t, data):
        if not self.has_handles(t):
            return True
        n = self.desc_size(t)
        if n is None or n > len(data):
            return True
        return self.compared(t, data[:n], data[n:])

    def layout_compared(self, t, desc):
        try:
            self.layout(t, desc)
            return True
        except Refused:
            return True
        except Apart:
            return False

    def _turns(self, t, desc, room, budget):
        """Turns of the Rust's walk over the value; raises Apart beyond the budget."""
        ty = self.get(t)
        if ty is None or ty[0] not in (ARRAY, RECORD) or not self.has_handles(t):
            return 1
        try:
            _, _, stride, count, _, offsets = self.layout(t, desc)
            if ty[0] == ARRAY:
                one = self._turns(ty[1], self.below(ty[2], desc, 24 * ty[3]), room, budget) if count else 0
                turns = 1 + one * (count if stride == 0 else min(count, room // stride + 1))
            else:
                turns, used = 1, 0
                for (f, c), off in zip(ty[1], offsets):
                    turns += self._turns(f, self.below(c, desc, used), max(0, room - off), budget)
                    if c == NO_CONST:
                        used += self._desc_size(f, 0) or 0
                    if turns > budget:
                        raise Apart
        except Refused:
            return 1
        if turns > budget:
            raise Apart
        return turns


def scalar_size(ty):
    if ty[0] in (ARRAY, RECORD):
        return None
    if ty[0] == ENUM:
        return 1 if ty[1] <= 256 else 4
    return 4 if ty[0] == FILE else 8


def aligned(n, to):
    n = -(-n // max(to, 1)) * max(to, 1)
    if n >= U64:
        raise Apart
    return n


def signed(b):
    return int.from_bytes(b, "little", signed=True)


def dimension(left, right, way):
    return b"".join(x.to_bytes(8, "little", signed=True) for x in (left, right, way))


def show_hex(b):
    return b.hex() or "-"


def type_line(ty):
    if ty[0] == RECORD:
        return "ty 5 " + (",".join(f"{t}:{c}" for t, c in ty[1]) or "-")
    return "ty " + " ".join(map(str, ty))
