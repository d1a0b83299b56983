      PARAMETER (N=1)
      INTEGER A(3)
      DATA (A(2),N=1,1)/1/
      END
