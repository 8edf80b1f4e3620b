"""The changes of a source, in their order."""
from .attributes import erase_attributes, open_enums
from .beside import add_beside
from .bounds import erase_drop_bounds, erase_runtime
from .ghosts import erase_clauses, erase_ghosts, erase_models, turn_proved_constants
from .marks import erase_marks
from .modules import add_arms, need_features, share_modules, skip_layout, turn_border, turn_places
from .paths import turn_links, turn_paths
from .sinks import turn_pairs, turn_sinks
from .uses import turn_exports, turn_uses
from .words import find_scopes

STEPS = [
    find_scopes,
    erase_marks,
    erase_ghosts,
    erase_models,
    erase_clauses,
    add_beside,
    turn_proved_constants,
    erase_attributes,
    open_enums,
    erase_drop_bounds,
    erase_runtime,
    turn_places,
    add_arms,
    need_features,
    turn_pairs,
    turn_sinks,
    turn_uses,
    turn_exports,
    turn_paths,
    turn_links,
    share_modules,
    turn_border,
    skip_layout,
]
