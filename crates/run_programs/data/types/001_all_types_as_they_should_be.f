      LOGICAL L,M(2),ODD
      INTEGER A(3)
      PARAMETER (N=2)
      ODD(K)=MOD(K,2).EQ.1
      L=ODD(3).AND..NOT.ODD(N)
      M(1)=L.EQV.(A(N).EQ.0)
      M(2)=1.LT.N.NEQV.L
      A(N)=IABS(-N)
      WRITE (6,10) L,M,A
   10 FORMAT (3L2,3I3)
      END
