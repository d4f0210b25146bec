"""The index of a formula in a sheet's pool: that of the first equal one, or a new one at the end."""
from ic_tree.dynamic import dynamic_with


def index_in_pool(formula, pool):
    return pool.index(formula) if formula in pool else len(pool)


def pool_with(formula, pool):
    return pool if formula in pool else pool + (formula,)


def is_dynamic(kinds, formula):
    return formula[0] == "Tree" and dynamic_with(kinds, formula[1])
