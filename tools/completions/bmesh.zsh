#compdef bmesh
# Completion of bmesh for zsh: a model, a script, a model to write, and the scale. Installed as _bmesh.

_arguments \
    '1:model:_files -g "*.obj(-.)"' \
    '2:script:_files' \
    '3:model to write:_files -g "*.obj(-.)"' \
    '--scale[decimal places of a coordinate]:decimal places:(0 1 2 3 4 5 6)'
