      PARAMETER (NLAST=3)
      INTEGER A(3)
      DATA A/1,2,3/
      ISQ(N)=N*N
      WRITE (6,10) (I,A(I),ISQ(A(I)),I=A(1),NLAST,ISQ(A(1))),
     1 (A(A(J)),J=MIN(1,2),MAX(2,3))
   10 FORMAT (3(I3,2I2),3I4)
      END
