"""What a query will cost, and what to change so that it costs less."""

from typing import NamedTuple

from .plans import all_combinations
from .queries import arguments_of, entries_of, indexes_of, key_of_term, sources_of
from .runner import Failed, TooLong
from .script_text import shown
from .table_file import name_in_script
from .trials import Copy, call_of, combinations, greatest_score, rows_of_table

# Of so many tables this many rows of each are sampled.
SAMPLED = {1: 256, 2: 64, 3: 24, 4: 12, 5: 8, 6: 6}
# A rank scan costs 2 a row, so a call has to cost as much for it to be taken.
COST_OF_RANK_SCAN = 2
MUCH_OF_A_SAMPLE = 4096
# A lower MAX is proposed where the greatest score is at most this share of it.
LOOSE_MAX = 0.8
# A seed is proposed where the plan of another one costs more by more than this share of it.
MUCH_BY_SEED = 0.2
# A change is proposed where it saves at least this share of the cost.
WORTH_A_CHANGE = 0.05
# An index is proposed where it pays from fewer queries than so many.
MOST_QUERIES = 100


class Price(NamedTuple):
    """How often each predicate is called."""

    calls: dict

    def cost(self, query):
        """The calls, each counted by the COST of its predicate."""
        return sum(calls * cost_of(query.predicate(name)) for name, calls in self.calls.items())

    def text(self, query):
        """The calls of each predicate. Free and dear ones are no one number, so where a COST is above 1, what is added is the cost."""
        calls = [(name, count) for name, count in self.calls.items() if count]
        if not calls:
            return "no calls"
        if len(calls) == 1:
            return calls_of_one(*calls[0])
        parts = [calls_of_one(*calls[0])] + ["%s of %s" % (number(count), shown(name)) for name, count in calls[1:]]
        text = ", ".join(parts[:-1]) + " and " + parts[-1]
        dear = any(cost_of(query.predicate(name)) > 1 for name, _ in calls)
        return text + (", which cost %s" % number(self.cost(query)) if dear else "")


class Case:
    """A query with all that is asked of it: the runs of its copies, and what they show."""

    def __init__(self, body, query, runner, seeds):
        self.body, self.query, self.runner, self.seeds = body, query, runner, seeds
        copy = Copy(body, query)
        if runner.start_trials(copy, seeds):
            # Whatever the plans of the query do, it is tried with each index that isn't there, and that runs beside them.
            for _, key, arguments in missing_indexes(query):
                runner.start_trials(copy_with_index(body, query, key, arguments), seeds)
        self.trials = {seed: runner.trial(copy, seed) for seed in seeds}
        self._rows = {}

    def rows(self, table):
        """How many rows a table has."""
        if table not in self._rows:
            self._rows[table] = rows_of_table(self.runner, self.body, self.query, table)
        return self._rows[table]

    def terms(self):
        """The terms, with their numbers."""
        return enumerate(self.query.select.terms, 1)

    def term(self, number):
        return self.query.select.terms[number - 1]

    def price_of(self, trial):
        """The calls of a plan, by predicate."""
        calls = {}
        for number, count in trial.calls.items():
            name = self.term(number).predicate.says
            calls[name] = calls.get(name, 0) + count
        return Price(calls)

    def best(self, trials=None):
        """The seed whose plan costs least, the first of these. Whoever runs the query may take it, so changes are weighed by it."""
        trials = trials or self.trials
        return min(self.seeds, key=lambda seed: self.cost_of_plan(trials[seed]))

    def cost_of_plan(self, trial):
        """The calls of a plan, each counted by the COST of its predicate."""
        return self.price_of(trial).cost(self.query)

    def least_cost(self, trials=None):
        """The cost of the plan that costs least."""
        trials = trials or self.trials
        return self.cost_of_plan(trials[self.best(trials)])

    def differs(self, trials=None):
        """Whether the plans of the seeds differ by so much that a seed is worth choosing."""
        trials = trials or self.trials
        costs = [self.cost_of_plan(trial) for trial in trials.values()]
        return max(costs) > (1 + MUCH_BY_SEED) * min(costs)

    def plan_text(self, trials=None):
        """What the plan makes that costs least, with its seed where another one makes much more."""
        trials = trials or self.trials
        seed = self.best(trials)
        text = self.price_of(trials[seed]).text(self.query)
        return text + (" with seed %d" % seed if self.differs(trials) else "")

    def saves(self, trials):
        """Whether a change by which these are the plans is worth its telling."""
        return self.least_cost() - self.least_cost(trials) >= max(1, WORTH_A_CHANGE * self.least_cost())

    def sample(self):
        """The calls of the sample, by predicate: each term is asked for each combination of the sampled rows of its tables."""
        calls = {}
        for block in self.query.select.blocks:
            for _, term in self.terms():
                name = term.predicate.says
                calls[name] = calls.get(name, 0) + self.sample_of(block, term)
        return Price(calls)

    def sample_of(self, block, term):
        sources, count = sources_of(block), 1
        for entry in entries_of(self.query, block, term):
            count *= min(SAMPLED[len(sources)], self.rows(sources[entry][0]))
        return count

    def index_calls(self, create):
        """The calls that make a rank index: one for each row of its table."""
        return self.rows(create.parsed.table.says)

    def used_indexes(self):
        """The rank indexes that a term of the query could be taken from."""
        keys = {key_of_term(self.query, block, term) for block in self.query.select.blocks for _, term in self.terms()}
        return [create for key, create in indexes_of(self.query).items() if key in keys]

    def combinations(self):
        """How many combinations `plain` scores, or None where counting them takes too long."""
        blocks = self.query.select.blocks
        if len(blocks) == 1:
            shown = (all_combinations(trial.operators, len(sources_of(blocks[0]))) for trial in self.trials.values())
            count = next((count for count in shown if count is not None), None)
            if count is not None:
                return count
        try:
            return sum(combinations(self.runner, self.body, self.query, number) for number in range(len(blocks)))
        except (Failed, TooLong):
            return None

    def plain(self, count):
        """The calls of `plain`, by predicate: each term is asked for each combination that satisfies the condition."""
        calls = {}
        for _, term in self.terms():
            calls[term.predicate.says] = calls.get(term.predicate.says, 0) + count
        return Price(calls)

    def other_trials(self, copy):
        """The runs of a changed copy, or None where one fails or takes too long."""
        self.runner.start_trials(copy, self.seeds)
        try:
            return {seed: self.runner.trial(copy, seed) for seed in self.seeds}
        except (Failed, TooLong):
            return None


def cost_of(predicate):
    """The COST of a predicate."""
    return int(predicate.cost.text) if predicate.cost else 1


def number(count):
    return format(count, ",")


def calls_of_one(name, count):
    return "%s %s of %s" % (number(count), "call" if count == 1 else "calls", shown(name))


def all_advice(case, count):
    """The sentences on what to change, `count` being how many combinations there are, or None where that isn't known."""
    cheap = cheap_with_index(case)
    return [*on_estimates(case, count), *on_seeds(case), *cheap, *on_indexes(case), *on_most(case), *on_sample(case), *on_plain(case, count)]


def on_estimates(case, count):
    """That nothing is known of a plan by which no row is expected."""
    blind = [seed for seed, trial in case.trials.items() if any(operator.est == 0 for operator in trial.operators)]
    if not blind or count == 0:
        return []
    sentence = "With %s an operator has est=0: the sample met no row of its join or its WHERE, so nothing is known of what stands" \
               " above it, and the plan may score far more than it needs." % seeds_text(blind)
    if not case.differs():
        sentence += " All these seeds lead to %s." % case.plan_text()
    return [sentence]


def on_seeds(case):
    """That the plan of one seed costs much less than that of another one."""
    if not case.differs():
        return []
    best, worst = case.best(), max(case.seeds, key=lambda seed: case.cost_of_plan(case.trials[seed]))
    return ["Take seed %d: its plan makes %s, and that of seed %d %s." % (
        best, case.price_of(case.trials[best]).text(case.query), worst, case.price_of(case.trials[worst]).text(case.query))]


def cheap_with_index(case):
    """A COST below that of a rank scan, of a predicate that has an index which the plan doesn't take."""
    sentences, seen = [], set()
    indexes = indexes_of(case.query)
    for place, term in case.terms():
        name = term.predicate.says
        predicate = case.query.predicate(name)
        keys = {key_of_term(case.query, block, term) for block in case.query.select.blocks}
        taken = all(place in trial.scanned for trial in case.trials.values())
        if name in seen or taken or cost_of(predicate) >= COST_OF_RANK_SCAN or not keys & set(indexes):
            continue
        seen.add(name)
        copy = Copy(case.body, case.query)
        copy.set_cost(predicate, COST_OF_RANK_SCAN)
        trials = case.other_trials(copy)
        if trials and case.saves(trials):
            sentences.append(
                "The COST of %s is %d, and a rank scan costs 2 a row, so the planner calls %s on the rows of a scan although there is a"
                " rank index. Write its true price, at least COST 2: then the plan makes %s in the place of %s." % (
                    name, cost_of(predicate), name, case.plan_text(trials), case.plan_text()))
    return sentences


def missing_indexes(query):
    """The rank indexes that aren't there and would serve a term: the number of the term, what tells the index, and its arguments."""
    seen = set(indexes_of(query))
    for place, term in enumerate(query.select.terms, 1):
        for block in query.select.blocks:
            key = key_of_term(query, block, term)
            if key is not None and key not in seen:
                seen.add(key)
                yield place, key, arguments_of(query, block, term)


def create_of(key, arguments):
    """The statement that makes such an index."""
    table, name, _ = key
    return "CREATE RANK INDEX advised ON %s (%s)" % (name_in_script(table), call_of(name, arguments))


def copy_with_index(body, query, key, arguments):
    """A copy of a query with a rank index more, and with a COST by which it is taken."""
    predicate, copy = query.predicate(key[1]), Copy(body, query)
    copy.added.append(create_of(key, arguments))
    if cost_of(predicate) < COST_OF_RANK_SCAN:
        copy.set_cost(predicate, COST_OF_RANK_SCAN)
    return copy


def on_indexes(case):
    """A rank index that isn't there, where it would save calls."""
    sentences = []
    for place, key, arguments in missing_indexes(case.query):
        sentences += with_index(case, place, key, arguments)
    return sentences


def with_index(case, place, key, arguments):
    """What a rank index for a term would change, if it saves calls."""
    table, name = key[:2]
    predicate, create = case.query.predicate(name), create_of(key, arguments)
    cheap = cost_of(predicate) < COST_OF_RANK_SCAN
    trials = case.other_trials(copy_with_index(case.body, case.query, key, arguments))
    if not trials:
        return []
    if not case.saves(trials):
        return []
    calls = case.rows(table)
    times = calls * cost_of(predicate) // (case.least_cost() - case.least_cost(trials)) + 1
    if times >= MOST_QUERIES:
        return []
    return ["There is no rank index for term %d. %s%s makes %s calls once, and then the plan makes %s in the place of %s, so it pays"
            " from %s on." % (place, create.replace(" advised ", " %s_%s " % (plain(table), plain(name))),
                              ", with COST 2 for %s or its true price if that is more," % name if cheap else "", number(calls),
                              case.plan_text(trials), case.plan_text(), times_text(times))]


def on_most(case):
    """A MAX far above each score, where a lower one would save calls."""
    sentences, seen = [], set()
    for _, term in case.terms():
        name, greatest = term.predicate.says, []
        predicate = case.query.predicate(name)
        if name in seen:
            continue
        seen.add(name)
        try:
            for other in (other for _, other in case.terms() if other.predicate.says == name):
                for block in case.query.select.blocks:
                    key = key_of_term(case.query, block, other)
                    call = key and call_of(name, arguments_of(case.query, block, other))
                    greatest.append(key and greatest_score(case.runner, case.body, case.query, key[0], call))
        except (Failed, TooLong):
            continue
        most = int(predicate.most.text)
        if None in greatest or max(greatest) > LOOSE_MAX * most:
            continue
        lower = max(1, *greatest)
        copy = Copy(case.body, case.query)
        copy.set_most(predicate, lower)
        trials = case.other_trials(copy)
        if trials and case.saves(trials):
            sentences.append("The MAX of %s is %d, and no row of these tables scores above %d. With MAX %d the plan makes %s in the place"
                             " of %s." % (name, most, max(greatest), lower, case.plan_text(trials), case.plan_text()))
    return sentences


def on_sample(case):
    """A term over several tables that the sample alone calls often."""
    sentences = []
    for place, term in case.terms():
        for block in case.query.select.blocks:
            tables = len(entries_of(case.query, block, term))
            calls = case.sample_of(block, term)
            if tables > 1 and calls >= MUCH_OF_A_SAMPLE:
                sentences.append("Term %d reads %d tables, so the sample alone calls %s %s times, and again for each query and cursor. A cursor"
                                 " that is fetched from again takes one sample in all; a term over one table takes %s calls." % (
                                     place, tables, term.predicate.says, number(calls),
                                     number(max(min(SAMPLED[len(sources_of(block))], case.rows(table)) for table, _ in sources_of(block)))))
    return sentences


def on_plain(case, count):
    """That `plain` is cheaper, or that little is saved."""
    if count is None:
        return []
    plain_cost = case.plain(count).cost(case.query)
    sample, plan = case.sample().cost(case.query), case.least_cost()
    if plain_cost < sample + plan:
        return ["`plain` is cheaper here: its calls cost %s, and those of `run` %s with its sample, each call counted by its COST." % (
            number(plain_cost), number(round(sample + plan)))]
    if plan * 2 > plain_cost:
        return ["The plan saves less than half of the calls of `plain`. That is so where the scores of most rows lie near each other or"
                " near the least, or where LIMIT asks for most of the rows."]
    return []


def seeds_text(seeds):
    return "%s %s" % ("seed" if len(seeds) == 1 else "seeds", ", ".join(map(str, seeds)))


def times_text(times):
    """From which such query on something pays."""
    return "the first such query" if times == 1 else "%s such queries" % number(times)


def plain(name):
    return "".join(sign if sign.isascii() and sign.isalnum() else "_" for sign in name)
