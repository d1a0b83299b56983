      INTEGER A(3)
      A(4294967297)=1
      END
