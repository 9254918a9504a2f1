"""Symbols of what a server answered: the places that words lead to."""

from collections import Counter, defaultdict

from codenav.index.answers import Answers, Place
from codenav.index.languages import is_c, is_header


class Grouped:
    """Which symbols each word leads to, and of each symbol its further definitions, the declarations
    apart from these, and the words that use it."""

    def __init__(self, found: Answers) -> None:
        self.found = found
        self.declared = defaultdict[Place, list[Place]](list)
        self.further = defaultdict[Place, list[Place]](list)
        for kept, known in ((self.declared, found.declared), (self.further, found.further)):
            for symbol, places in known.items():
                kept[symbol] = list(map(self.snapped, places))
        self.uses: defaultdict[Place, list[Place]] = defaultdict(list)
        self.leads = {
            word: list(dict.fromkeys(map(self.snapped, places)))
            for word, places in sorted(found.leads.items())
        }
        for symbol, places in self.further.items():
            for place in places:
                self.leads.setdefault(place, [symbol])
        self.pair()
        self.join()
        several = [*self.declared.items(), *self.further.items()]
        apart = {(place, symbol) for symbol, places in several for place in places}
        self.symbols = sorted({symbol for places in self.leads.values() for symbol in places})
        for word, places in self.leads.items():
            for symbol in places:
                if word != symbol and (word, symbol) not in apart:
                    self.uses[symbol].append(word)

    def snapped(self, place: Place) -> Place:
        """The word that begins at a place. That of a whole file is empty, for one of any width would
        answer for the words in it; where a word is there it's over lines, and answers for none."""
        if (place.line, place.start) == (0, 0) and place.at not in self.found.words:
            return Place(place.uri, 0, 0, 0, 0)
        if (place.line, place.start) == (0, 0) and place.line != place.end_line:
            return place
        return self.found.words.get(place.at, place)

    def implementing(self, symbol: Place) -> list[Place]:
        """Where a symbol is implemented: the definitions of what was answered."""
        places = map(self.snapped, self.found.implementations.get(symbol, []))
        return sorted({to for place in places for to in self.leads.get(place, [place])})

    def size(self, place: Place) -> tuple[int, int]:
        """How large the declaration at a place is, in lines and code units."""
        name = self.found.names.get(place.at)
        return name.size if name else (0, 0)

    def pair(self) -> None:
        """Has a definition that leads to its declaration lead to itself. Of two that lead to each other
        it's the one that more other words lead to, or else the one in no header, or else the larger.
        """

        def order(place: Place) -> tuple[int, bool, int, int]:
            lines, units = self.size(place)
            return -weight[place], is_header(place.uri), -lines, -units

        weight = Counter(
            place for word, places in self.leads.items() for place in places if place != word
        )
        for word, places in list(self.leads.items()):
            for other in places:
                back = self.leads.get(other, [])
                if word < other and word in back and other not in back and word not in places:
                    both = sorted((word, other), key=order)
                    self.leads[both[0]] = [both[0]]
                    self.declared[both[0]].append(both[1])

    def join(self) -> None:
        """Has a word lead to each of several definitions of one name in C, as two programs in a folder have
        them, unless its own file has one. Each of them leads to one that's the first for the server, or
        to the declaration, which leads to one."""
        owner = {place: symbol for symbol, places in self.declared.items() for place in places}
        owner |= {place: place for place in self.leads if self.leads[place] == [place]}
        several = defaultdict[Place, list[Place]](list)
        for word, places in self.leads.items():
            symbol = owner.get(places[0], word) if len(places) == 1 else word
            if symbol != word and self.defines(word) and self.defines(symbol):
                several[symbol].append(word)
        every = {
            one: sorted((symbol, *others))
            for symbol, others in several.items()
            for one in (symbol, *others)
        }
        for symbol, others in several.items():
            for other in others:
                self.leads[other] = [other]
                self.declared[other] = self.declared[symbol]
        for word, places in self.leads.items():
            group = every.get(places[0], []) if len(places) == 1 and word not in every else []
            own = [one for one in group if one.uri == word.uri]
            self.leads[word] = own or group or places

    def defines(self, place: Place) -> bool:
        """Whether a place is a definition of C."""
        name = self.found.names.get(place.at)
        return name is not None and name.is_defined and is_c(place.uri)

    def tags(self) -> dict[Place, Place]:
        """For each symbol the word at which it's asked for: its own where that leads there, or the first
        that does; or its own, which may lead to another, as that of an embedded field of Go does.
        """
        own = {symbol: symbol for symbol in self.symbols if symbol.at in self.found.words}
        first = {symbol: self.uses[symbol][0] for symbol in self.symbols if self.uses[symbol]}
        leading = {symbol: symbol for symbol in own if symbol in self.leads.get(symbol, [])}
        return own | first | leading
