#!/bin/sh
# A job array that runs a bench with 10,000 seeds, 1,000 in each task. SCRIPT_BENCH is the path of the program, and BENCH that of the file.
#SBATCH --job-name=seeds
#SBATCH --array=0-9
#SBATCH --output=seeds/%a.log
#SBATCH --time=00:10:00
first=$((SLURM_ARRAY_TASK_ID * 1000 + 1))
"$SCRIPT_BENCH" run --seeds "$first-$((first + 999))" "$BENCH" > "seeds/$SLURM_ARRAY_TASK_ID.txt"
