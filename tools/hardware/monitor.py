"""The scoreboard of the testbench: the protocol itself, which each event of the hardware moves."""
from expressions import Scope, completed, first_value
from testbench_text import write_variables
from text import block, case, filled

MONITOR = """
// ---- the protocol, moved by the events of the hardware; an event that doesn't take place there, or
// hands over another value, is an error

integer home_in;
integer remote_in [0:REMOTES-1];
@declared@
logic [UP_VALUE_WIDTH-1:0]   value_up;
logic [DOWN_VALUE_WIDTH-1:0] value_down;
logic [UP_MESSAGE_WIDTH-1:0] message_up;
logic [DOWN_MESSAGE_WIDTH-1:0] message_down;
logic [ID_WIDTH-1:0]         partner;
logic                        happens;
integer p;

task start_protocol;
  begin
    home_in = @home_start@;
    @home_first@
    for (p = 0; p < REMOTES; p = p + 1) begin
      remote_in[p] = @remote_start@;
      @remote_first@
    end
  end
endtask

// The home or remote j takes the local step of guard g.
task tau_of_home(input integer g);
  begin
    happens = 1'b0;
    @home_taus@
    if (!happens) $display("ERROR: tau home %0d doesn't take place in the protocol", g);
  end
endtask

task tau_of_remote(input integer j, input integer g);
  begin
    happens = 1'b0;
    @remote_taus@
    if (!happens) $display("ERROR: tau %0d %0d doesn't take place in the protocol", j, g);
  end
endtask

// Remote j sends, and the home takes it by guard h.
task event_up(input integer j, input integer h, input logic [UP_MESSAGE_WIDTH-1:0] message,
              input logic [UP_VALUE_WIDTH-1:0] value);
  begin
    partner = j;
    happens = 1'b0;
    @remote_sends@
    if (happens && (message_up != message || value_up != value)) happens = 1'b0;
    if (happens) begin
      happens = 1'b0;
      @home_takes@
    end
    if (!happens) $display("ERROR: up %0d %0d 0 doesn't take place in the protocol", j, h);
  end
endtask

// The home sends by guard h, and remote j takes it by guard r.
task event_down(input integer j, input integer h, input integer r, input logic [DOWN_MESSAGE_WIDTH-1:0] message,
                input logic [DOWN_VALUE_WIDTH-1:0] value);
  begin
    partner = j;
    happens = 1'b0;
    @home_sends@
    if (happens && (message_down != message || value_down != value)) happens = 1'b0;
    if (happens) begin
      happens = 1'b0;
      @remote_takes@
    end
    if (!happens) $display("ERROR: down %0d %0d %0d doesn't take place in the protocol", j, h, r);
  end
endtask

task write_protocol;
  begin
    $fwrite(log, "  home ");
    @home_state@
    @home_variables@
    $fwrite(log, "\\n");
    for (p = 0; p < REMOTES; p = p + 1) begin
      $fwrite(log, "  remote %0d ", p);
      @remote_state@
      @remote_variables@
      $fwrite(log, "\\n");
    end
  end
endtask

// The first claim that is broken, or -1.
integer claim_broken = -1;
integer in_first, in_second;
task check_claims;
  begin
    claim_broken = -1;
    @claims@
  end
endtask
"""


class Side:
    """One process of the protocol: its guards over the scoreboard's own variables."""

    def __init__(self, design, controller, index):
        self.design, self.controller, self.index = design, controller, index
        self.numbers = {state: number for number, state in enumerate(controller.guards)}
        self.scope = Scope(design, controller.types, self.signal)
        self.stand = "home_in" if controller.word == "home" else "remote_in[%s]" % index

    def signal(self, name):
        """The scoreboard's variable."""
        return "in_%s_%s%s" % (self.controller.word, name, "[%s]" % self.index if self.index else "")

    def arms(self, kind, number, lines_of):
        """For each state and each guard of this kind what happens by it, where it is open."""
        states = {}
        for state, guards in self.controller.guards.items():
            arms = {}
            for guard in guards:
                if guard.kind == kind:
                    tests = [self.scope.condition(guard)]
                    if self.controller.word == "home" and kind != "tau":
                        tests.append("(%s & %s_pkg::id_set(partner)) != %d'd0" % (
                            self.scope.targets(guard), self.design.name, self.design.remotes))
                    test = " && ".join(text for text in tests if text)
                    lines = lines_of(guard)
                    arms[guard.number] = block("if (%s)" % test, lines) if test else lines
            if arms:
                states[self.numbers[state]] = case(number, arms)
        return case(self.stand, states)

    def moves(self, guard, value):
        """The process completes the guard."""
        return ["happens = 1'b1;"] + completed(self.scope, guard, "partner", value) + \
            ["%s = %d;" % (self.stand, self.numbers[guard.goto])]

    def sends(self, guard):
        """The process sends by the guard: message and value are those before it completes it."""
        way = "up" if self.controller.word == "remote" else "down"
        return ["message_%s = %s_pkg::%s;" % (way, self.design.name, self.design.messages[guard.message].constant),
                "value_%s = %s;" % (way, self.scope.payload(guard, way))] + self.moves(guard, None)

    def takes(self, guard):
        """The process takes the message by the guard."""
        way = "down" if self.controller.word == "remote" else "up"
        test = "message_%s == %s_pkg::%s" % (way, self.design.name, self.design.messages[guard.message].constant)
        return block("if (%s)" % test, self.moves(guard, "value_%s" % way))

    def first(self):
        """The first values."""
        return ["%s = %s;" % (self.signal(name), first_value(self.design, kind, self.controller.first[name]))
                for name, kind in self.controller.types.items()]

    def state_text(self):
        """Writes the state."""
        return case(self.stand, {number: ['$fwrite(log, "%s");' % state] for state, number in self.numbers.items()})


def counted(name, side, states):
    """Counts the remotes in these states."""
    tests = " || ".join("remote_in[p] == %d" % side.numbers[state] for state in states)
    return "for (p = 0; p < REMOTES; p = p + 1) if (%s) %s = %s + 1;" % (tests, name, name)


def claim_lines(design, side):
    """Looks at each claim, the last one first, so that the first broken one is named."""
    lines = []
    for number, claim in reversed(list(enumerate(design.claims))):
        words = claim.split()
        lines += ["in_first = 0;", "in_second = 0;"]
        if words[0] == "atmost":
            lines += [counted("in_first", side, words[3:]), "if (in_first > %s) claim_broken = %d;" % (words[1], number)]
        elif words[1] == words[3]:
            lines += [counted("in_first", side, [words[1]]), "if (in_first > 1) claim_broken = %d;" % number]
        else:
            lines += [counted("in_first", side, [words[1]]), counted("in_second", side, [words[3]]),
                      "if (in_first > 0 && in_second > 0) claim_broken = %d;" % number]
    return lines


def monitor_lines(design):
    """The scoreboard."""
    home, remote = Side(design, design.home, ""), Side(design, design.remote, "j")
    every = Side(design, design.remote, "p")
    declared = ["logic [%d:0] %s;" % (design.width(kind) - 1, home.signal(name))
                for name, kind in design.home.types.items()]
    declared += ["logic [%d:0] in_remote_%s [0:REMOTES-1];" % (design.width(kind) - 1, name)
                 for name, kind in design.remote.types.items()]
    return filled(
        MONITOR, declared=declared, home_start=home.numbers[design.home.start[0]],
        remote_start=remote.numbers[design.remote.start[0]], home_first=home.first(), remote_first=every.first(),
        home_taus=home.arms("tau", "g", lambda guard: home.moves(guard, None)),
        remote_taus=remote.arms("tau", "g", lambda guard: remote.moves(guard, None)),
        remote_sends=remote.arms("to", "0", remote.sends), home_takes=home.arms("from", "h", home.takes),
        home_sends=home.arms("to", "h", home.sends), remote_takes=remote.arms("from", "r", remote.takes),
        home_state=home.state_text(), remote_state=every.state_text(),
        home_variables=write_variables(design.home.types, home.signal),
        remote_variables=write_variables(design.remote.types, every.signal), claims=claim_lines(design, remote))
