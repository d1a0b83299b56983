      LOGICAL L
      PARAMETER (N=1)
      N=2
      L=N
      END
