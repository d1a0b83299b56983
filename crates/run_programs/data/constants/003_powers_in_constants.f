      PARAMETER (K=2**10,L=(-1)**(-3),M=7**(-1),N=-2**2)
      WRITE (6,10) K,L,M,N
   10 FORMAT (4I6)
      END
