      PARAMETER (N=2)
      DO N=1,2
      END DO
      END
