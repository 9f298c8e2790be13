"""A plugin of pytest: a test is run under many schedules, each made by a seed.

    def test_no_deposit_is_lost(detio_run):
        result = detio_run(deposit, deposit)
        assert max(result.values) == 10

The test is a case for each seed, 1 to 20, or those of `--detio-seeds 1-100` or `@pytest.mark.detio(seeds=range(9))`. A
case that fails leaves its log in `detio-logs`, or the folder of `--detio-logs`. It says the line that runs it again,
and shows the last calls of its run. With `--detio-replay` the run is replayed by that log, and reaches nothing outside.
Where the package is installed, pytest finds the plugin; else `pytest -p detio_pytest` does.
"""

import os
import re
import shlex

import pytest

import detio


def pytest_addoption(parser):
    group = parser.getgroup('detio')
    group.addoption('--detio-seeds', metavar='SEEDS', help='a seed, as 7, or all of some, as 1-100 (default: 1-20)')
    group.addoption('--detio-logs', metavar='FOLDER', default='detio-logs', help='where logs are left')
    group.addoption('--detio-replay', action='store_true', help='replay the log that the case left')


def pytest_configure(config):
    config.addinivalue_line('markers', 'detio(seeds, reach): the seeds of a test with detio_run, and their reach')
    seeds_of(config.getoption('--detio-seeds') or '1')


def seeds_of(text):
    """The seeds that an option names."""
    words = re.fullmatch(r'(\d+)(?:-(\d+))?', text)
    if not words:
        raise pytest.UsageError(f'--detio-seeds is a seed or two, as 7 or 1-100, and not {text}')
    return range(int(words[1]), int(words[2] or words[1]) + 1)


def marked(node, name, default):
    """What the mark of a test says."""
    mark = node.get_closest_marker('detio')
    return mark.kwargs.get(name, default) if mark else default


def pytest_generate_tests(metafunc):
    if 'detio_seed' in metafunc.fixturenames:
        given = metafunc.config.getoption('--detio-seeds')
        seeds = seeds_of(given) if given else marked(metafunc.definition, 'seeds', range(1, 21))
        metafunc.parametrize('detio_seed', seeds, ids=[f'seed-{seed}' for seed in seeds])


@pytest.fixture
def detio_run(request, detio_seed):
    """Runs functions together under the schedule of the case: the result, which was checked unless `check` is false."""
    config, node = request.config, request.node
    node.detio_results = []
    reach = marked(node, 'reach', detio.REACH)

    def play(*functions, check=True, **settings):
        run = detio.Run(*functions, **settings)
        name = name_of(node, len(node.detio_results))
        if config.getoption('--detio-replay'):
            path = os.path.join(config.getoption('--detio-logs'), detio.log_name(detio_seed, reach, name))
            result = run.replay(path)
        else:
            result = run.record(seed=detio_seed, reach=reach)
        node.detio_results.append(result)
        return result.check() if check else result

    return play


def name_of(node, number):
    """How the logs of a case begin: by the name of its test, and the number of its run where that is not the first."""
    name = re.sub(r'[^\w.]+', '_', getattr(node, 'originalname', None) or node.name)
    return f'{name}-{number}' if number else name


@pytest.hookimpl(hookwrapper=True)
def pytest_runtest_makereport(item, call):
    report = (yield).get_result()
    results = getattr(item, 'detio_results', None)
    if report.when != 'call' or not report.failed or not results:
        return
    folder, lines = item.config.getoption('--detio-logs'), []
    if not item.config.getoption('--detio-replay'):
        lines += [f'log: {it.save(folder, name_of(item, at))}' for at, it in enumerate(results)]
    again = f'pytest {shlex.quote(item.nodeid)} --detio-seeds {results[-1].seed}'
    lines += [f'again: {again}', f'by its log: {again} --detio-replay', '', str(results[-1])]
    report.sections.append(('detio', '\n'.join(lines)))
