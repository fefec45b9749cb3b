#!/usr/bin/env bash
# Audits the sub-folders of DIR as a Slurm job array, a share of them to each task; the nodes see this repository and DIR. In the
# repository's folder, with the job number that sbatch prints:
#   sbatch --wait examples/audit.sbatch DIR
#   cat target/audit-JOB-*.lines | ./audit-all DIR -
# The second prints a line for each board and the summary. A task fails if a board of its share was not audited or it has none, not if one
# is refused. For another number of tasks: sbatch --wait --array=1-100 examples/audit.sbatch DIR
# For shares that take as long as each other, with a machine for each task:
#   target/bin/tirfolma plan --machines 8 --out PLAN DIR
#   sbatch --wait examples/audit.sbatch DIR PLAN
#   cat target/audit-JOB-*.lines | ./audit-all DIR -
#SBATCH --job-name=audit
#SBATCH --array=1-8
#SBATCH --output=target/audit-%A-%a.lines
if [ $# -gt 1 ]; then
  export LIST=$2/machine-$SLURM_ARRAY_TASK_ID.list
else
  export SHARE=$SLURM_ARRAY_TASK_ID/$SLURM_ARRAY_TASK_COUNT
fi
./audit-all "$1" "$SLURM_CPUS_ON_NODE" || [ $? -eq 1 ]
