      INTEGER A(3)
      A(LAST(3))=1
      END
