"""A small Scheme, all of whose values and environments are objects of a traced heap, with three programs in it.

An object's first data word is its tag. A number, a truth value and a primitive have their value in the second one, a symbol
its number. A pair has two slots, a closure three (parameters, body, environment), a vector one for each element. An
environment is a list of pairs of a symbol and a value. So a step of the evaluation is a dozen reads and writes of the heap.
"""
NUMBER, SYMBOL, PAIR, CLOSURE, PRIMITIVE, VECTOR, TRUTH = range(1, 8)

QUEENS = """
(define (ok? row far placed)
  (if (null? placed) #t
      (if (= (car placed) (+ row far)) #f
          (if (= (car placed) (- row far)) #f
              (if (= (car placed) row) #f
                  (ok? row (+ far 1) (cdr placed)))))))
(define (try row n k placed)
  (if (= row n) 0
      (+ (if (ok? row 1 placed) (queens n (+ k 1) (cons row placed)) 0)
         (try (+ row 1) n k placed))))
(define (queens n k placed) (if (= k n) 1 (try 0 n k placed)))
(queens 5 0 (quote ()))
"""

TREES = """
(define (make depth) (if (= depth 0) (cons (quote ()) (quote ())) (cons (make (- depth 1)) (make (- depth 1)))))
(define (count tree) (if (null? (car tree)) 1 (+ 1 (+ (count (car tree)) (count (cdr tree))))))
(define long (make 9))
(define (loop turn) (if (= turn 20) 0 (+ (count (make 5)) (loop (+ turn 1)))))
(+ (loop 0) (count long))
"""

RING = """
(define ring (make-vector 500))
(define (fill at) (if (= at 500) 0 (begin (vector-set! ring at (cons at (quote ()))) (fill (+ at 1)))))
(define (link at)
  (if (= at 499) 0
      (begin (set-cdr! (vector-ref ring at) (vector-ref ring (+ at 1))) (link (+ at 1)))))
(define (sum pair n) (if (= n 0) 0 (+ (car pair) (sum (cdr pair) (- n 1)))))
(fill 0)
(link 0)
(set-cdr! (vector-ref ring 499) (vector-ref ring 0))
(sum (vector-ref ring 7) 600)
"""


class Scheme:
    def __init__(self, heap):
        self.heap, self.names, self.symbols, self.globals = heap, [], {}, None
        self.true, self.false = self.box(TRUTH, 1), self.box(TRUTH, 0)
        self.primitives = [
            ("+", lambda a, b: self.box(NUMBER, self.number(a) + self.number(b))),
            ("-", lambda a, b: self.box(NUMBER, self.number(a) - self.number(b))),
            ("=", lambda a, b: self.truth(self.number(a) == self.number(b))),
            ("cons", self.cons),
            ("car", self.car),
            ("cdr", self.cdr),
            ("null?", lambda a: self.truth(a is None)),
            ("set-cdr!", lambda a, b: heap.put(a, 1, b)),
            ("vector-ref", lambda a, at: heap.get(a, self.number(at))),
            ("vector-set!", lambda a, at, value: heap.put(a, self.number(at), value)),
            ("make-vector", lambda n: self.tagged(VECTOR, self.number(n))),
        ]
        for number, (name, _call) in enumerate(self.primitives):
            self.define(self.symbol(name), self.box(PRIMITIVE, number))
        self.define(self.symbol("#t"), self.true)
        self.define(self.symbol("#f"), self.false)

    def box(self, tag, value):
        made = self.heap.new(0, 2)
        self.heap.set(made, 0, tag)
        self.heap.set(made, 1, value)
        return made

    def tagged(self, tag, slots):
        made = self.heap.new(slots, 1)
        self.heap.set(made, 0, tag)
        return made

    def cons(self, first, rest):
        made = self.tagged(PAIR, 2)
        self.heap.put(made, 0, first)
        self.heap.put(made, 1, rest)
        return made

    def closure(self, names, body, scope):
        made = self.tagged(CLOSURE, 3)
        for slot, value in enumerate([names, body, scope]):
            self.heap.put(made, slot, value)
        return made

    def symbol(self, name):
        if name not in self.symbols:
            self.symbols[name] = self.box(SYMBOL, len(self.names))
            self.names.append(name)
        return self.symbols[name]

    def car(self, pair):
        return self.heap.get(pair, 0)

    def cdr(self, pair):
        return self.heap.get(pair, 1)

    def tag(self, value):
        return self.heap.say(value, 0)

    def number(self, value):
        word = self.heap.say(value, 1)
        return word - 2**64 if word >> 63 else word

    def truth(self, is_true):
        return self.true if is_true else self.false

    def items(self, pair):
        while pair is not None:
            yield self.car(pair)
            pair = self.cdr(pair)

    def define(self, symbol, value):
        self.globals = self.cons(self.cons(symbol, value), self.globals)

    def read(self, text):
        """The expressions of a text, as objects of the heap."""
        words = text.replace("(", " ( ").replace(")", " ) ").split()
        words.reverse()

        def expression():
            word = words.pop()
            if word != "(":
                return self.box(NUMBER, int(word)) if word.isdigit() else self.symbol(word)
            parts, made = [], None
            while words[-1] != ")":
                parts.append(expression())
            words.pop()
            while parts:
                made = self.cons(parts.pop(), made)
            return made

        made = []
        while words:
            made.append(expression())
        return made

    def binding(self, symbol, scope):
        for scope in (scope, self.globals):
            for pair in self.items(scope):
                if self.heap.same(self.car(pair), symbol):
                    return pair
        raise NameError(self.names[self.heap.say(symbol, 1)])

    def name(self, head):
        if head is not None and self.tag(head) == SYMBOL:
            return self.names[self.heap.say(head, 1)]
        return None

    def is_false(self, value):
        return value is not None and self.tag(value) == TRUTH and self.heap.say(value, 1) == 0

    def sequence(self, body, scope):
        """Evaluates all but the last of a list of expressions, and returns that one."""
        while self.cdr(body) is not None:
            self.eval(self.car(body), scope)
            body = self.cdr(body)
        return self.car(body)

    def new_definition(self, target, rest):
        if self.tag(target) == PAIR:
            self.define(self.car(target), None)
            self.heap.put(self.car(self.globals), 1, self.closure(self.cdr(target), rest, None))
        else:
            self.define(target, self.eval(self.car(rest), None))

    def eval(self, code, scope):
        while code is not None:
            tag = self.tag(code)
            if tag == SYMBOL:
                return self.cdr(self.binding(code, scope))
            if tag != PAIR:
                return code
            head, rest = self.car(code), self.cdr(code)
            name = self.name(head)
            if name == "quote":
                return self.car(rest)
            if name == "define":
                return self.new_definition(self.car(rest), self.cdr(rest))
            if name == "if":
                arms = self.cdr(rest)
                code = self.car(self.cdr(arms) if self.is_false(self.eval(self.car(rest), scope)) else arms)
            elif name == "begin":
                code = self.sequence(rest, scope)
            else:
                function = self.eval(head, scope)
                arguments = [self.eval(part, scope) for part in self.items(rest)]
                if self.tag(function) == PRIMITIVE:
                    return self.primitives[self.heap.say(function, 1)][1](*arguments)
                scope = self.heap.get(function, 2)
                for symbol, value in zip(self.items(self.heap.get(function, 0)), arguments):
                    scope = self.cons(self.cons(symbol, value), scope)
                body = self.heap.get(function, 1)
                del function, arguments
                code = self.sequence(body, scope)
        return None


def run_text(heap, text):
    scheme, value = Scheme(heap), None
    for code in scheme.read(text):
        value = scheme.eval(code, None)
    return scheme.number(value)


def run(heap):
    return [run_text(heap, text) for text in (QUEENS, TREES, RING)]


def expected():
    queens = 10     # ways to place five queens on a board of five by five
    trees = 20 * (2**6 - 1) + 2**10 - 1
    ring = sum((7 + step) % 500 for step in range(600))
    return [queens, trees, ring]
