      INTEGER A(3)
      A(3)=4
      GO TO (10,10),A(A(3))
   10 END
