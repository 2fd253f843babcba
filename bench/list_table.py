"""Cases of lists of words and of numbers, by their definitions element by element, at every length from 0 to 70 and every
offset within a vector of eight."""

LANES = 8
LONGEST = 70
ROOM = LONGEST + LANES
FACTOR = 6364136223846793005
WORD = 2**64


def advance(state):
    return (state * FACTOR + 1442695040888963407) % WORD


def sample(gap, seed):
    """Words of a linear congruential generator at every `gap`-th place, and 0 at the others."""
    words, state = [], seed
    for place in range(ROOM):
        state = advance(state)
        words.append(state if place % gap == gap // 2 else 0)
    return words


def sample_numbers(spread):
    numbers, state = [], 3
    for _ in range(ROOM):
        state = advance(state)
        numbers.append((state >> 20) % (2 * spread + 1) - spread)
    return numbers


def fold(words):
    """A number that tells lists of words apart."""
    number = 0
    for word in words:
        number = (number * FACTOR + word) % WORD
    return number


def list_line(name, numbers):
    return " ".join([f"list {name} {len(numbers)}"] + [str(number) for number in numbers])


def shown(place):
    return "none" if place is None else str(place)


def places(words, others, start, end):
    ones = [64 * (w - start) + b for w in range(start, end) for b in range(64) if words[w] >> b & 1]
    inside = all(words[w] & ~others[w] == 0 for w in range(start, end))
    first = ones[0] if ones else None
    last = ones[-1] if ones else None
    return f"list places {start} {end}", f"places {len(ones)} {shown(first)} {shown(last)} {int(inside)} 1"


def bitwise(words, others, start, end):
    both = [w & o if start <= k < end else w for k, (w, o) in enumerate(zip(words, others))]
    either = [w | o if start <= k < end else w for k, (w, o) in enumerate(zip(words, others))]
    return f"list bitwise {start} {end}", f"bitwise {fold(both)} {fold(either)}"


def sums(numbers, start, end, amount):
    """Adds the amount to the numbers themselves."""
    for place in range(start, end):
        numbers[place] += amount
    return f"list sums {start} {end} {amount}", f"sums {fold([number % WORD for number in numbers])}"


def search(numbers, start, end, bounds):
    most = max(numbers[start:end], default=None)
    firsts = [next((place for place in range(start, end) if numbers[place] > bound), None) for bound in bounds]
    line = f"list search {start} {end} {len(bounds)} " + " ".join(str(bound) for bound in bounds)
    return line, " ".join(["search", shown(most)] + [shown(first) for first in firsts])


def parts():
    return [(start, end) for start in range(LANES) for end in range(start, start + LONGEST + 1)]


def small_cases():
    words = [3, 0, 8]
    yield list_line("words", words), "words"
    yield list_line("others", words), "others"
    yield places(words, words, 0, 3)
    for some in ([0, 1 << 63], [WORD - 1] * 9):
        yield list_line("words", some), "words"
        yield list_line("others", some), "others"
        yield places(some, some, 0, len(some))
    numbers = [0] * 5
    yield list_line("numbers", numbers), "numbers"
    yield sums(numbers, 1, 4, 2)
    yield search(numbers, 0, 5, [1])
    least, most = -(2**63), 2**63 - 1
    numbers = [least] * 9
    yield list_line("numbers", numbers), "numbers"
    yield search(numbers, 0, 9, [least])
    numbers[7] = most
    yield list_line("numbers", numbers), "numbers"
    yield search(numbers, 0, 9, [most - 1, most])
    yield search(numbers, 9, 9, [least])


def cases():
    yield from small_cases()
    for gap in [1, 3, 11, ROOM]:
        words, others = sample(gap, 1), sample(1, 2)
        over = [0 if place == ROOM // 2 else word | other for place, (word, other) in enumerate(zip(words, others))]
        yield list_line("words", words), "words"
        yield list_line("others", others), "others"
        yield from (bitwise(words, others, start, end) for start, end in parts())
        yield list_line("others", over), "others"
        yield from (places(words, over, start, end) for start, end in parts())
    for spread in [1, 7, 1 << 40]:
        numbers = sample_numbers(spread)
        yield list_line("numbers", numbers), "numbers"
        yield from (search(numbers, start, end, [-(2**63), -1, 0, 1, spread - 1, spread]) for start, end in parts())
        yield from (sums(numbers, start, end, -5) for start, end in parts())
