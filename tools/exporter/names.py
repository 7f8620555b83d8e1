"""Names of a protocol as the checkers' languages may have them."""

MURPHI = """alias array assert begin boolean by case clear const cover do else elsif end endalias endexists
endfor endforall endfunction endif endprocedure endrecord endrule endruleset endstartstate endswitch
endwhile enum error exists false flushmultiset for forall from function if in interleaved invariant
isundefined ismember liveness match multiset multisetadd multisetcount multisetremove
multisetremovepred not of ormap procedure process program put record return rule ruleset scalarset
startstate switch then to traceuntil true type undefine union until var while""".split()
PROMELA = """active assert atomic bit bool break byte chan d_proctype d_step do else empty enabled false fi
for full get_priority goto hidden if in init inline int len local ltl mtype nempty never nfull notrace
np_ od of pc_value pid print printf printm priority proctype provided return run select set_priority
short show skip timeout trace true typedef unless unsigned xr xs eval define ifdef include
always eventually until weakuntil stronguntil release implies equivalent next""".split()
C = """auto break case char const continue default do double else enum extern float for goto if inline int
long register restrict return short signed sizeof static struct switch typedef union unsigned void
volatile while main now trpt uchar ushort uint""".split()
# The fields that the machines have beside the variables of a protocol.
OURS = """state awaits waits mode slot up down ups downs owed held place kind message value number remotes
home remote r which what""".split()
TAKEN = set(MURPHI + PROMELA + C + OURS)


class Names:
    """The names of one protocol."""

    def __init__(self, protocol):
        self.home = protocol.home
        self.fields = {}
        for variable in list(protocol.home.variables) + list(protocol.remote.variables):
            name = variable if variable[0] != "_" else "v" + variable
            while name.lower() in TAKEN or self.fields.get(variable, name) != name or name in [
                    other for known, other in self.fields.items() if known != variable]:
                name += "_"
            self.fields[variable] = name

    def field(self, variable):
        """The field in which a variable is kept."""
        return self.fields[variable]

    def state(self, process, state):
        """A state, as a constant."""
        return ("H_" if process is self.home else "R_") + state

    @staticmethod
    def message(message):
        """A message, as a constant."""
        return "M_" + message
