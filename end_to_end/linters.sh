#!/usr/bin/env bash
# What reads code without running it: mypy --strict and flake8 over all Python, shellcheck over all shell scripts.
. "$(dirname "$0")/common.sh"
install mypy=mypy flake8=flake8 shellcheck=shellcheck
install_python distributed hypothesis jinja2 matplotlib networkx numpy openpyxl pandas psutil pytest selenium tomlkit tqdm zstandard
export PYTHONDONTWRITEBYTECODE=1
cd "$top" || exit 1

# types FILE..: mypy --strict over these files, which may import those of the first one's folder, of end_to_end and of the package.
types() {
    (cd "$(dirname "$1")" && MYPYPATH=$top/end_to_end:$top/python mypy --config-file="$top/python/pyproject.toml" \
        --cache-dir="$room/mypy" --python-executable=/usr/bin/python3 "${@##*/}")
}

# types_of_the_package: the same of the package and its tests.
types_of_the_package() {
    (cd python && mypy --cache-dir="$room/mypy" --python-executable=/usr/bin/python3)
}

# types_of_examples: of two files of one name, the second of which imports the first.
types_of_examples() {
    (cd examples && MYPYPATH=. mypy --config-file="$top/python/pyproject.toml" --explicit-package-bases --cache-dir="$room/mypy" \
        --python-executable=/usr/bin/python3 */*.py)
}

check "types of the package" types_of_the_package
check "style of the package" flake8 --max-line-length=120 python
for folder in end_to_end bench release; do
    check "types of $folder" types "$folder"/*.py
done
for file in docs/*/*.py; do
    check "types of $file" types "$file"
done
check "types of examples" types_of_examples
check "style of all other Python" flake8 --max-line-length=140 end_to_end bench release docs examples
check "shell scripts" shellcheck -x -S warning -P SCRIPTDIR:"$top" test demo package audit .ci/run examples/make end_to_end/*.sh release/*.sh
finish
