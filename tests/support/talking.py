"""The proved module and the proved poller, talking to each other: `talking.py` writes what the CPU's end sends and hears."""

ALL_ONES = 2 ** 64 - 1
LOSSES = 5      # one answer in this many is lost


def rounds(count, losses=LOSSES):
    """What is sent and heard in this many rounds, after a configuration of input 0; one answer in `losses` is lost."""
    from fio2070 import ConfigurationItem, Module, Poller, encode
    module, poller = Module(), Poller(255)
    configuration = encode.configure_inputs([ConfigurationItem(0, False, 1, 1)])
    yield '>', configuration
    yield '<', module.receive(configuration)
    for number in range(count):
        module.scan(ALL_ONES - number % 2)
        poll = poller.poll()
        answer = module.receive(poll)
        yield '>', poll
        if number % losses:
            poller.hear(answer)
            yield '<', answer


def session(count, apart=0.01, losses=LOSSES):
    """The same with times, `apart` seconds after each other."""
    return [(round(apart * place, 3), direction, octets) for place, (direction, octets) in enumerate(rounds(count, losses))]


def main():
    for direction, octets in rounds(40):
        print(direction, octets.hex(), flush=True)


if __name__ == '__main__':
    main()
