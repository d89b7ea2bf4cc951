#!/usr/bin/env bash
#SBATCH --job-name=play
#SBATCH --array=0-15
#SBATCH --cpus-per-task=1
#SBATCH --output=play.%A.%a.log
# A play as an array of Slurm: each task plays a range of the instants, and a last job joins the parts. From the top of the
# repository, in a folder that all machines share, with the words of on_many_machines.sh:
#
#   words=(subtitles.mkv --from 0 --to 7200000 --rate 24000/1001 --size 1920x1080 film.ass font.ttf)
#   job=$(sbatch --parsable --array=0-15 examples/on_many_machines.sbatch "${words[@]}")
#   sbatch --dependency="afterok:$job" --wrap "$(printf '%q ' examples/on_many_machines.sh -j -n 16 "${words[@]}")"
set -eu
exec examples/on_many_machines.sh -n "$SLURM_ARRAY_TASK_COUNT" -w "$((SLURM_ARRAY_TASK_ID - SLURM_ARRAY_TASK_MIN))" "$@"
